//! The operations on multi-size files.

use super::declared::{self, FileAnswer, SizeAnswer};
use super::numbers::{host_method, host_size, kind_number, method_of, size_of};
use super::{count, judged, served};
use crate::files::{Head, Range};
use crate::method::Method;
use crate::picture::{Kind, Size};
use crate::refusal::Refusal;

fn head_of(answer: FileAnswer) -> Result<Head, Refusal> {
    judged(answer.number)?;
    let range = Range {
        depth: count(answer.depth),
        growth: count(answer.growth),
    };
    Ok(Head {
        size: size_of(answer.size),
        method: method_of(answer.method),
        range,
    })
}

/// The picture's file at the front of `out`; gives its length.
pub fn build(
    picture: &[u8],
    size: Size,
    method: Method,
    range: Range,
    out: &mut [u8],
    work: &mut [u8],
) -> Result<usize, Refusal> {
    // SAFETY: each pointer comes with the length of its slice, which stays lent
    // until the call ends.
    let answer = unsafe {
        declared::multisize_build(
            picture.as_ptr(),
            picture.len(),
            host_size(size),
            host_method(method),
            range.depth,
            range.growth,
            out.as_mut_ptr(),
            out.len(),
            work.as_mut_ptr(),
            work.len(),
        )
    };
    served(answer).map(count)
}

/// Checks a file; gives what it says of its picture.
pub fn check(file: &[u8], work: &mut [u8]) -> Result<Head, Refusal> {
    // SAFETY: both pointers come with the lengths of their slices, which stay
    // lent until the call ends.
    head_of(unsafe {
        declared::multisize_check(file.as_ptr(), file.len(), work.as_mut_ptr(), work.len())
    })
}

/// The file's picture and map at the fronts of `picture` and `map`.
pub fn read(
    file: &[u8],
    picture: &mut [u8],
    map: &mut [u16],
    work: &mut [u8],
) -> Result<Head, Refusal> {
    // SAFETY: each pointer comes with the length of its slice, which stays lent
    // until the call ends.
    head_of(unsafe {
        declared::multisize_read(
            file.as_ptr(),
            file.len(),
            picture.as_mut_ptr(),
            picture.len(),
            map.as_mut_ptr(),
            map.len(),
            work.as_mut_ptr(),
            work.len(),
        )
    })
}

/// What the file shows at the wanted width at the front of `out`; gives its
/// size.
pub fn show(file: &[u8], wanted: usize, out: &mut [u8], work: &mut [u8]) -> Result<Size, Refusal> {
    // SAFETY: each pointer comes with the length of its slice, which stays lent
    // until the call ends.
    let answer: SizeAnswer = unsafe {
        declared::multisize_show(
            file.as_ptr(),
            file.len(),
            wanted,
            out.as_mut_ptr(),
            out.len(),
            work.as_mut_ptr(),
            work.len(),
        )
    };
    judged(answer.number)?;
    Ok(size_of(answer.size))
}

/// A row of samples and its row of the map, shown at the wanted width at the
/// front of `out`; gives how many bytes are shown.
pub fn row_at(
    samples: &[u8],
    kind: Kind,
    numbers: &[u16],
    wanted: usize,
    out: &mut [u8],
) -> Result<usize, Refusal> {
    // SAFETY: each pointer comes with the length of its slice, which stays lent
    // until the call ends.
    let answer = unsafe {
        declared::multisize_row_at(
            samples.as_ptr(),
            samples.len(),
            kind_number(kind),
            numbers.as_ptr(),
            numbers.len(),
            wanted,
            out.as_mut_ptr(),
            out.len(),
        )
    };
    served(answer).map(count)
}
