//! Checking a file.

use super::one_file::{file_answer, Buffers, Case, Gives};
use super::sides::Compared;
use crate::difference::Difference;
use crate::library::{self, FileAnswer};
use crate::random::Random;

pub fn compare(random: &mut Random, turn: u64) -> Result<u64, Difference> {
    let case = Case::of_turn(random, turn, Gives::Nothing);
    case.compare("reference", by_reference, by_library)
}

fn by_reference(_: &Case, buffers: &mut Buffers) -> FileAnswer {
    let (file, work) = (buffers.file.part(), buffers.work.part_mut());
    file_answer(reference::check(file, work))
}

fn by_library(_: &Case, buffers: &mut Buffers) -> FileAnswer {
    library::check(buffers.file.part_mut(), buffers.work.part_mut())
}
