//! The picture of a file at a wanted width.

use super::one_file::{Buffers, Case, Gives};
use super::sides::Compared;
use crate::difference::Difference;
use crate::library::{self, SizeAnswer};
use crate::pictures::NamedSize;
use crate::random::Random;

pub fn compare(random: &mut Random, turn: u64) -> Result<u64, Difference> {
    let case = Case::of_turn(random, turn, Gives::WidthShown);
    case.compare("reference", by_reference, by_library)
}

fn by_reference(case: &Case, buffers: &mut Buffers) -> SizeAnswer {
    let (file, out) = (buffers.file.part(), buffers.out.part_mut());
    match reference::show(file, case.wanted, out, buffers.work.part_mut()) {
        Ok(size) => SizeAnswer::served(NamedSize::of(size)),
        Err(number) => SizeAnswer::refused(u64::from(number)),
    }
}

pub fn by_library(case: &Case, buffers: &mut Buffers) -> SizeAnswer {
    library::show(
        buffers.file.part_mut(),
        case.wanted,
        buffers.out.part_mut(),
        buffers.work.part_mut(),
    )
}

#[cfg(test)]
mod tests {
    use super::*;
    use crate::pictures::ROUND;

    #[test]
    fn narrower_and_wider_pictures_are_shown() {
        let mut counts = [0; 3];
        for turn in 2 * ROUND..4 * ROUND {
            let mut random = Random::of_case(1, turn);
            let case = Case::of_turn(&mut random, turn, Gives::WidthShown);
            let shown = case.outcome(by_reference).answer;
            if shown.number == 0 {
                let file = case.buffers.file.part();
                let mut work = vec![0; 32 * 512 * 512];
                let width = reference::check(file, &mut work).unwrap().size.width;
                counts[(shown.size.width.cmp(&width) as i8 + 1) as usize] += 1;
            }
        }
        assert!(counts.iter().all(|count| *count > 20), "{counts:?}");
    }

    #[test]
    fn every_altered_part_of_the_answer_is_noticed() {
        let case = Case::of_turn(&mut Random::new(1), 2 * ROUND + 70, Gives::WidthShown);
        let outcome = case.outcome(by_reference);
        let alterations: [fn(&mut SizeAnswer); 4] = [
            |answer| answer.number ^= 8,
            |answer| answer.size.width += 1,
            |answer| answer.size.height += 1,
            |answer| answer.size.kind ^= 1,
        ];
        for alter in alterations {
            let mut altered = outcome.clone();
            alter(&mut altered.answer);
            assert!(case.verdict("reference", &outcome, &altered).is_err());
        }
    }
}
