//! What coming to each pixel of a row costs, given into three output spaces.

use super::one_row::Case;
use crate::difference::Difference;
use crate::library::{self, Answer};
use crate::random::Random;

/// The spaces for the costs from the left, from above and from the right.
type Spaces<'a> = [&'a mut [u32]; 3];

pub fn compare(random: &mut Random, turn: u64) -> Result<u64, Difference> {
    let case = Case::of_turn(random, turn, |size| size.width);
    let reference = case.outcome(|picture, spaces| by_reference(&case, picture, spaces));
    let library = case.outcome(|picture, spaces| by_library(&case, picture, spaces));
    case.verdict(&reference, &library)
}

/// An unknown kind or method is refused by 1; the reference has no such kind or
/// method.
fn by_reference(case: &Case<u32, 3>, picture: &[u8], [left, up, right]: Spaces) -> Answer {
    let Some((size, method)) = case.size.known_by(case.method) else {
        return Answer::refused(1);
    };
    match reference::step_costs(picture, size, method, case.row, left, up, right) {
        Ok(()) => Answer::served(0),
        Err(number) => Answer::refused(u64::from(number)),
    }
}

fn by_library(case: &Case<u32, 3>, picture: &mut [u8], spaces: Spaces) -> Answer {
    // This operation answers by a number alone.
    let number = library::step_costs(picture, case.size, case.method, case.row, spaces);
    Answer { number, value: 0 }
}

#[cfg(test)]
mod tests {
    use super::*;
    use crate::pictures::ROUND;

    /// Each of the spaces is short alone, and the reference refuses that by 8.
    #[test]
    fn each_space_is_short_alone() {
        let mut counts = [0; 3];
        for turn in 0..8 * ROUND {
            let case = Case::of_turn(&mut Random::of_case(1, turn), turn, |size| size.width);
            let outcome = case.outcome(|picture, spaces| by_reference(&case, picture, spaces));
            let short = case
                .outs
                .each_ref()
                .map(|out| out.part().len() < case.size.width);
            if outcome.answer.number == 8 && short.iter().filter(|it| **it).count() == 1 {
                counts[short.iter().position(|it| *it).unwrap()] += 1;
            }
        }
        assert!(counts.iter().all(|count| *count > 10), "{counts:?}");
    }

    /// Left and right differ, by `forward` alone.
    #[test]
    fn sides_differ_by_forward_alone() {
        let mut counts = [0; 3];
        for turn in 0..4 * ROUND {
            let case = Case::of_turn(&mut Random::of_case(1, turn), turn, |size| size.width);
            let outcome = case.outcome(|picture, spaces| by_reference(&case, picture, spaces));
            let [left, _, right] = outcome.outs.each_ref().map(|out| {
                let length = case.size.width.min(out.part().len());
                out.part()[..length].to_vec()
            });
            let served = outcome.answer.number == 0;
            counts[usize::from(case.method.energy).min(2)] += usize::from(served && left != right);
        }
        assert_eq!(counts[..2], [0, 0]);
        assert!(counts[2] > 50, "{counts:?}");
    }
}
