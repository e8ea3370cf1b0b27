//! Cutting one seam by marks.

use super::one_seam::{Case, Parts};
use crate::difference::Difference;
use crate::library::{self, Answer};
use crate::marks;
use crate::random::Random;

pub fn compare(random: &mut Random, turn: u64) -> Result<u64, Difference> {
    let case = Case::of_turn(random, turn, marks::each);
    case.compare("reference", by_reference, by_library)
}

fn by_reference(case: &Case, parts: Parts) -> Answer {
    let Parts {
        picture,
        marks,
        seam,
        work,
    } = parts;
    case.known_answer(|size, method, axis| {
        reference::cut_marked(picture, marks, size, method, axis, seam, work)
    })
}

pub fn by_library(case: &Case, parts: Parts) -> Answer {
    library::cut_marked(
        parts.picture,
        parts.marks,
        case.size,
        case.method,
        case.axis,
        parts.seam,
        parts.work,
    )
}
