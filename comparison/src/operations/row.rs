//! A row of a picture. The reference gives it out as a part of the picture;
//! the library's function for hosts copies it to the front of a space, so the
//! part is copied in the same way here.

use super::one_row::Case;
use crate::difference::Difference;
use crate::library::{self, Answer};
use crate::pictures::row_bytes;
use crate::random::Random;

pub fn compare(random: &mut Random, turn: u64) -> Result<u64, Difference> {
    let case = Case::of_turn(random, turn, row_bytes);
    let reference = case.outcome(|picture, [out]| by_reference(&case, picture, out));
    let library = case.outcome(|picture, [out]| library::row(picture, case.size, case.row, out));
    case.verdict(&reference, &library)
}

/// An unknown kind is refused by 1, as the reference has no such kind, and a
/// space shorter than the row by 8.
fn by_reference(case: &Case<u8>, picture: &[u8], out: &mut [u8]) -> Answer {
    let Some(size) = case.size.known() else {
        return Answer::refused(1);
    };
    let row = reference::row(picture, size, case.row);
    if out.len() < row.len() {
        return Answer::refused(8);
    }
    out[..row.len()].copy_from_slice(row);
    Answer::served(row.len() as u64)
}
