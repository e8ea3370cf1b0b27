//! Retargeting.

use super::Answer;
use crate::methods::NamedMethod;
use crate::pictures::NamedSize;
use reference::{Columns, Rows};

extern "C" {
    fn multisize_retarget(
        picture: *const u8,
        picture_len: usize,
        size: NamedSize,
        method: NamedMethod,
        rows: usize,
        columns: usize,
        out: *mut u8,
        out_len: usize,
        work: *mut u8,
        work_len: usize,
    ) -> Answer;
}

/// The picture with so many rows and columns less at the front of `out`; the
/// value is the total.
pub fn retarget(
    picture: &mut [u8],
    size: NamedSize,
    method: NamedMethod,
    rows: Rows,
    columns: Columns,
    out: &mut [u8],
    work: &mut [u8],
) -> Answer {
    // Each pointer comes with the length of its slice; the slices don't overlap.
    unsafe {
        multisize_retarget(
            picture.as_mut_ptr(),
            picture.len(),
            size,
            method,
            rows.0,
            columns.0,
            out.as_mut_ptr(),
            out.len(),
            work.as_mut_ptr(),
            work.len(),
        )
    }
}

#[cfg(test)]
mod tests {
    use super::*;

    const SIZE: NamedSize = NamedSize {
        width: 3,
        height: 2,
        kind: 0,
    };
    const EDGE: NamedMethod = NamedMethod { energy: 0 };
    const FLAT: NamedMethod = NamedMethod { energy: 1 };
    const FORWARD: NamedMethod = NamedMethod { energy: 2 };
    const UNKNOWN: NamedMethod = NamedMethod { energy: 3 };

    /// What is answered of the worked picture, and the output space and the work
    /// space after it.
    fn given(method: NamedMethod, rows: usize, columns: usize) -> (Answer, [u8; 5], [u8; 600]) {
        let (mut picture, rows, columns) = ([10, 10, 40, 10, 50, 40], Rows(rows), Columns(columns));
        let (mut out, mut work) = ([9; 5], [9; 600]);
        let (left, space) = (&mut out, &mut work);
        let answer = retarget(&mut picture, SIZE, method, rows, columns, left, space);
        (answer, out, work)
    }

    #[test]
    fn retargets_of_the_worked_picture() {
        let served = |total, out| (Answer::served(total), out, [0; 600]);
        assert_eq!(given(EDGE, 0, 2), served(40 + 40, [10, 50, 9, 9, 9]));
        assert_eq!(given(EDGE, 1, 1), served(60, [10, 40, 9, 9, 9]));
        assert_eq!(given(FLAT, 0, 2), served(0, [10, 10, 9, 9, 9]));
        assert_eq!(given(FLAT, 1, 1), served(0, [10, 10, 9, 9, 9]));
        assert_eq!(given(FORWARD, 0, 2), served(30 + 60, [40, 40, 9, 9, 9]));
        assert_eq!(given(FORWARD, 1, 1), served(30, [10, 40, 9, 9, 9]));
        let refused = |number| (Answer::refused(number), [9; 5], [9; 600]);
        assert_eq!(given(EDGE, 2, 0), refused(7));
        assert_eq!(given(EDGE, 0, 0), refused(8));
        assert_eq!(given(UNKNOWN, 2, 0), refused(1));
    }
}
