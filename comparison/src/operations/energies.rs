//! The energies of a row, given into an output space.

use super::one_row::Case;
use crate::difference::Difference;
use crate::library::{self, Answer};
use crate::random::Random;

pub fn compare(random: &mut Random, turn: u64) -> Result<u64, Difference> {
    let case = Case::of_turn(random, turn, |size| size.width);
    let reference = case.outcome(|picture, [out]| by_reference(&case, picture, out));
    let library = case.outcome(|picture, [out]| by_library(&case, picture, out));
    case.verdict(&reference, &library)
}

/// An unknown kind or method is refused by 1; the reference has no such kind or
/// method.
fn by_reference(case: &Case<u32>, picture: &[u8], out: &mut [u32]) -> Answer {
    let Some((size, method)) = case.size.known_by(case.method) else {
        return Answer::refused(1);
    };
    match reference::energies(picture, size, method, case.row, out) {
        Ok(()) => Answer::served(0),
        Err(number) => Answer::refused(u64::from(number)),
    }
}

fn by_library(case: &Case<u32>, picture: &mut [u8], out: &mut [u32]) -> Answer {
    // This operation answers by a number alone.
    let number = library::energies(picture, case.size, case.method, case.row, out);
    Answer { number, value: 0 }
}
