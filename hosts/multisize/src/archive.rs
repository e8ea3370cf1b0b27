//! The functions of the archive, and safe forms of them over slices.
//!
//! A slice is handed to the archive as a pointer and a length. The functions
//! have no other condition: they judge every argument themselves, keep within
//! the slices, keep no pointer, and write only to the slices lent to be changed.

#![allow(unsafe_code)]

mod declared;
mod files;
mod numbers;
mod seams;

pub use files::{build, check, read, row_at, show};
pub use seams::{cut, cut_marked, find, find_marked, remove, retarget};

use crate::method::Method;
use crate::picture::Size;
use crate::refusal::Refusal;
use declared::Answer;
use numbers::{host_method, host_size};

/// Number 0 is served, any other a refusal.
fn judged(number: u64) -> Result<(), Refusal> {
    if number == 0 {
        return Ok(());
    }
    Err(Refusal::numbered(number).expect("the archive refuses by 1 to 13"))
}

/// The value of an answer that is served.
fn served(answer: Answer) -> Result<u64, Refusal> {
    judged(answer.number)?;
    Ok(answer.value)
}

/// A count that the archive gives, which is that of something lent.
fn count(number: u64) -> usize {
    usize::try_from(number).expect("the archive gives counts that fit")
}

/// The energies of a row at the front of `out`.
pub fn energies(
    picture: &[u8],
    size: Size,
    method: Method,
    row: usize,
    out: &mut [u32],
) -> Result<(), Refusal> {
    // SAFETY: both pointers come with the lengths of their slices, which stay
    // lent until the call ends.
    let number = unsafe {
        declared::multisize_energies(
            picture.as_ptr(),
            picture.len(),
            host_size(size),
            host_method(method),
            row,
            out.as_mut_ptr(),
            out.len(),
        )
    };
    judged(number)
}

/// What coming to each pixel of a row costs from the left, from above and from the
/// right, at the fronts of three spaces.
pub fn step_costs(
    picture: &[u8],
    size: Size,
    method: Method,
    row: usize,
    [left, up, right]: [&mut [u32]; 3],
) -> Result<(), Refusal> {
    // SAFETY: each pointer comes with the length of its slice, which stays lent
    // until the call ends.
    let number = unsafe {
        declared::multisize_step_costs(
            picture.as_ptr(),
            picture.len(),
            host_size(size),
            host_method(method),
            row,
            left.as_mut_ptr(),
            left.len(),
            up.as_mut_ptr(),
            up.len(),
            right.as_mut_ptr(),
            right.len(),
        )
    };
    judged(number)
}

/// A row copied to the front of `out`; gives its length.
pub fn row(picture: &[u8], size: Size, row: usize, out: &mut [u8]) -> Result<usize, Refusal> {
    // SAFETY: both pointers come with the lengths of their slices, which stay
    // lent until the call ends.
    let answer = unsafe {
        declared::multisize_row(
            picture.as_ptr(),
            picture.len(),
            host_size(size),
            row,
            out.as_mut_ptr(),
            out.len(),
        )
    };
    served(answer).map(count)
}

#[cfg(test)]
mod tests {
    use super::*;
    use crate::files::Range;
    use crate::picture::Kind;
    use crate::retargets::{Columns, Rows};
    use crate::seams::Axis;

    const SIZE: Size = Size::grey(3, 2);
    const PICTURE: [u8; 6] = [10, 10, 40, 10, 50, 40];

    #[test]
    fn short_spaces_are_refused_by_8() {
        let (short, mut work) = (Err(Refusal::Space), [9; 600]);
        let method = Method::default();
        let given = energies(&PICTURE, SIZE, method, 0, &mut [0; 2]);
        assert_eq!(given, Err(Refusal::Space));
        for lengths in [[2, 3, 3], [3, 2, 3], [3, 3, 2]] {
            let mut spaces = lengths.map(|length| vec![9; length]);
            let parts = spaces.each_mut().map(|space| space.as_mut_slice());
            let given = step_costs(&PICTURE, SIZE, method, 0, parts);
            assert_eq!((given, spaces.concat()), (Err(Refusal::Space), vec![9; 8]));
        }
        assert_eq!(row(&PICTURE, SIZE, 0, &mut [0; 2]), Err(Refusal::Space));
        let given = row_at(&PICTURE[..3], Kind::Grey, &[1, 0, 2], 4, &mut [0; 3]);
        assert_eq!(given, Err(Refusal::Space));
        let vertical = Axis::Vertical;
        let given = find(&PICTURE, SIZE, method, vertical, &mut [0], &mut work);
        assert_eq!(given, short);
        let given = find(
            &PICTURE,
            SIZE,
            method,
            vertical,
            &mut [0; 2],
            &mut work[..191],
        );
        assert_eq!(given, short);
        let (rows, columns) = (Rows(0), Columns(1));
        let given = retarget(
            &PICTURE,
            SIZE,
            method,
            rows,
            columns,
            &mut [0; 3],
            &mut work,
        );
        assert_eq!(given, short);
        let range = Range::full(3);
        let given = build(&PICTURE, SIZE, method, range, &mut [0; 9], &mut work);
        assert_eq!(given, Err(Refusal::Space));
        assert_eq!(work, [9; 600]);
    }
}
