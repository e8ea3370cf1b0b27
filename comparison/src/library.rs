//! The functions of the archive, and safe forms of them.
//!
//! A picture, its marks and a file are handed on from buffers that may be
//! changed, so that a write to them would be seen in the comparison.

#![allow(unsafe_code)]

mod files;
mod removal;
mod retarget;

pub use files::{build, check, read, row_at, show, FileAnswer, SizeAnswer};
pub use removal::{remove, Ended};
pub use retarget::retarget;

use crate::axes::NamedAxis;
use crate::methods::NamedMethod;
use crate::pictures::NamedSize;
use std::fmt;

/// The number of a refusal and value 0, or number 0 and the value.
#[repr(C)]
#[derive(Clone, Copy, Debug, PartialEq, Eq)]
pub struct Answer {
    pub number: u64,
    pub value: u64,
}

impl Answer {
    pub fn refused(number: u64) -> Answer {
        Answer { number, value: 0 }
    }

    pub fn served(value: u64) -> Answer {
        Answer { number: 0, value }
    }
}

impl fmt::Display for Answer {
    fn fmt(&self, f: &mut fmt::Formatter) -> fmt::Result {
        write!(f, "number {}, value {}", self.number, self.value)
    }
}

extern "C" {
    fn multisize_energies(
        picture: *const u8,
        picture_len: usize,
        size: NamedSize,
        method: NamedMethod,
        r: usize,
        out: *mut u32,
        out_len: usize,
    ) -> u64;

    fn multisize_step_costs(
        picture: *const u8,
        picture_len: usize,
        size: NamedSize,
        method: NamedMethod,
        r: usize,
        left: *mut u32,
        left_len: usize,
        up: *mut u32,
        up_len: usize,
        right: *mut u32,
        right_len: usize,
    ) -> u64;

    fn multisize_row(
        picture: *const u8,
        picture_len: usize,
        size: NamedSize,
        r: usize,
        out: *mut u8,
        out_len: usize,
    ) -> Answer;

    fn multisize_find(
        picture: *const u8,
        picture_len: usize,
        size: NamedSize,
        method: NamedMethod,
        axis: u8,
        seam: *mut u16,
        seam_len: usize,
        work: *mut u8,
        work_len: usize,
    ) -> Answer;

    fn multisize_cut(
        picture: *mut u8,
        picture_len: usize,
        size: NamedSize,
        method: NamedMethod,
        axis: u8,
        seam: *mut u16,
        seam_len: usize,
        work: *mut u8,
        work_len: usize,
    ) -> Answer;

    fn multisize_find_marked(
        picture: *const u8,
        picture_len: usize,
        marks: *const u8,
        marks_len: usize,
        size: NamedSize,
        method: NamedMethod,
        axis: u8,
        seam: *mut u16,
        seam_len: usize,
        work: *mut u8,
        work_len: usize,
    ) -> Answer;

    fn multisize_cut_marked(
        picture: *mut u8,
        picture_len: usize,
        marks: *mut u8,
        marks_len: usize,
        size: NamedSize,
        method: NamedMethod,
        axis: u8,
        seam: *mut u16,
        seam_len: usize,
        work: *mut u8,
        work_len: usize,
    ) -> Answer;
}

/// The energies of a row at the front of `out`; gives 0 or a refusal's number.
pub fn energies(
    picture: &mut [u8],
    size: NamedSize,
    method: NamedMethod,
    row: usize,
    out: &mut [u32],
) -> u64 {
    // Both pointers come with the lengths of their slices, which don't overlap.
    unsafe {
        multisize_energies(
            picture.as_mut_ptr(),
            picture.len(),
            size,
            method,
            row,
            out.as_mut_ptr(),
            out.len(),
        )
    }
}

/// What coming to each pixel of a row costs from the left, from above and from the
/// right, at the fronts of three spaces; gives 0 or a refusal's number.
pub fn step_costs(
    picture: &mut [u8],
    size: NamedSize,
    method: NamedMethod,
    row: usize,
    [left, up, right]: [&mut [u32]; 3],
) -> u64 {
    // Each pointer comes with the length of its slice; the slices don't overlap.
    unsafe {
        multisize_step_costs(
            picture.as_mut_ptr(),
            picture.len(),
            size,
            method,
            row,
            left.as_mut_ptr(),
            left.len(),
            up.as_mut_ptr(),
            up.len(),
            right.as_mut_ptr(),
            right.len(),
        )
    }
}

/// A row copied to the front of `out`; the value is its length.
pub fn row(picture: &mut [u8], size: NamedSize, row: usize, out: &mut [u8]) -> Answer {
    // Both pointers come with the lengths of their slices, which don't overlap.
    unsafe {
        multisize_row(
            picture.as_mut_ptr(),
            picture.len(),
            size,
            row,
            out.as_mut_ptr(),
            out.len(),
        )
    }
}

/// The seam at the front of `seam`; the value is its cost.
pub fn find(
    picture: &mut [u8],
    size: NamedSize,
    method: NamedMethod,
    axis: NamedAxis,
    seam: &mut [u16],
    work: &mut [u8],
) -> Answer {
    // Each pointer comes with the length of its slice; the slices don't overlap.
    unsafe {
        multisize_find(
            picture.as_mut_ptr(),
            picture.len(),
            size,
            method,
            axis.0,
            seam.as_mut_ptr(),
            seam.len(),
            work.as_mut_ptr(),
            work.len(),
        )
    }
}

/// As `find`, and the picture left at the front of `picture`.
pub fn cut(
    picture: &mut [u8],
    size: NamedSize,
    method: NamedMethod,
    axis: NamedAxis,
    seam: &mut [u16],
    work: &mut [u8],
) -> Answer {
    // Each pointer comes with the length of its slice; the slices don't overlap.
    unsafe {
        multisize_cut(
            picture.as_mut_ptr(),
            picture.len(),
            size,
            method,
            axis.0,
            seam.as_mut_ptr(),
            seam.len(),
            work.as_mut_ptr(),
            work.len(),
        )
    }
}

/// The seam by the marks at the front of `seam`; the value is its cost.
pub fn find_marked(
    picture: &mut [u8],
    marks: &mut [u8],
    size: NamedSize,
    method: NamedMethod,
    axis: NamedAxis,
    seam: &mut [u16],
    work: &mut [u8],
) -> Answer {
    // Each pointer comes with the length of its slice; the slices don't overlap.
    unsafe {
        multisize_find_marked(
            picture.as_mut_ptr(),
            picture.len(),
            marks.as_mut_ptr(),
            marks.len(),
            size,
            method,
            axis.0,
            seam.as_mut_ptr(),
            seam.len(),
            work.as_mut_ptr(),
            work.len(),
        )
    }
}

/// As `find_marked`, and what is left at the front of `picture` and `marks`.
pub fn cut_marked(
    picture: &mut [u8],
    marks: &mut [u8],
    size: NamedSize,
    method: NamedMethod,
    axis: NamedAxis,
    seam: &mut [u16],
    work: &mut [u8],
) -> Answer {
    // Each pointer comes with the length of its slice; the slices don't overlap.
    unsafe {
        multisize_cut_marked(
            picture.as_mut_ptr(),
            picture.len(),
            marks.as_mut_ptr(),
            marks.len(),
            size,
            method,
            axis.0,
            seam.as_mut_ptr(),
            seam.len(),
            work.as_mut_ptr(),
            work.len(),
        )
    }
}

#[cfg(test)]
mod tests {
    use super::*;

    const SIZE: NamedSize = NamedSize {
        width: 3,
        height: 2,
        kind: 0,
    };
    const EDGE: NamedMethod = NamedMethod { energy: 0 };
    const FLAT: NamedMethod = NamedMethod { energy: 1 };
    const FORWARD: NamedMethod = NamedMethod { energy: 2 };
    const UNKNOWN: NamedMethod = NamedMethod { energy: 3 };

    #[test]
    fn energies_of_the_worked_picture() {
        let mut picture = [10, 10, 40, 10, 50, 40];
        let mut out = [9; 4];
        assert_eq!(energies(&mut picture, SIZE, EDGE, 0, &mut out), 0);
        assert_eq!(out, [0, 70, 30, 9]);
        assert_eq!(energies(&mut picture, SIZE, EDGE, 1, &mut out), 0);
        assert_eq!(out, [40, 50, 10, 9]);
        assert_eq!(energies(&mut picture, SIZE, FLAT, 0, &mut out), 0);
        assert_eq!(out, [0, 70, 0, 9]);
        assert_eq!(energies(&mut picture, SIZE, FLAT, 1, &mut out), 0);
        assert_eq!(out, [40, 10, 0, 9]);
        assert_eq!(energies(&mut picture, SIZE, FORWARD, 0, &mut out), 0);
        assert_eq!(out, [0, 30, 30, 9]);
        assert_eq!(energies(&mut picture, SIZE, FORWARD, 1, &mut out), 0);
        assert_eq!(out, [40, 30, 10, 9]);
        assert_eq!(energies(&mut picture, SIZE, FLAT, 2, &mut out), 4);
        assert_eq!(energies(&mut picture, SIZE, UNKNOWN, 2, &mut out), 1);
    }

    #[test]
    fn step_costs_of_the_worked_picture() {
        let mut picture = [10, 10, 40, 10, 50, 40];
        let mut costs = |method, row, length| {
            let (mut left, mut up, mut right) = ([9; 4], [9; 4], [9; 4]);
            let spaces: [&mut [u32]; 3] = [&mut left, &mut up, &mut right[..length]];
            let number = step_costs(&mut picture, SIZE, method, row, spaces);
            (number, [left, up, right])
        };
        assert_eq!(costs(FORWARD, 0, 4), (0, [[0, 30, 30, 9]; 3]));
        let [left, up, right] = [[40, 30, 20, 9], [40, 30, 10, 9], [80, 60, 10, 9]];
        assert_eq!(costs(FORWARD, 1, 3), (0, [left, up, right]));
        assert_eq!(costs(EDGE, 1, 3), (0, [[40, 50, 10, 9]; 3]));
        assert_eq!(costs(FLAT, 1, 3), (0, [[40, 10, 0, 9]; 3]));
        assert_eq!(costs(FORWARD, 1, 2), (8, [[9; 4]; 3]));
        assert_eq!(costs(FORWARD, 2, 2), (4, [[9; 4]; 3]));
        assert_eq!(costs(UNKNOWN, 2, 2), (1, [[9; 4]; 3]));
    }

    #[test]
    fn row_of_the_worked_picture() {
        let mut picture = [10, 10, 40, 10, 50, 40];
        let mut out = [9; 4];
        let answer = row(&mut picture, SIZE, 1, &mut out);
        assert_eq!((answer.number, answer.value), (0, 3));
        assert_eq!(out, [10, 50, 40, 9]);
        let short = row(&mut picture, SIZE, 1, &mut out[..2]);
        assert_eq!((short.number, short.value), (8, 0));
    }

    #[test]
    fn seams_of_the_worked_picture() {
        let mut picture = [10, 10, 40, 10, 50, 40];
        let (mut seam, mut work) = ([9; 3], [9; 200]);
        let axis = NamedAxis(0);
        let answer = find(&mut picture, SIZE, EDGE, axis, &mut seam, &mut work);
        assert_eq!(answer, Answer::served(40));
        assert_eq!((seam, work), ([0, 0, 9], [0; 200]));
        let answer = cut(&mut picture, SIZE, EDGE, axis, &mut seam, &mut work);
        assert_eq!(answer, Answer::served(40));
        assert_eq!(picture, [10, 40, 50, 40, 0, 0]);
        let mut call = |method| cut(&mut picture, SIZE, method, axis, &mut seam[..1], &mut work);
        assert_eq!(call(EDGE), Answer::refused(8));
        assert_eq!(call(UNKNOWN), Answer::refused(1));
    }

    #[test]
    fn seams_of_the_worked_picture_by_flat() {
        let mut picture = [10, 10, 40, 10, 50, 40];
        let mut marks = [2, 0, 0, 0, 0, 0];
        let (mut seam, mut work) = ([9; 3], [9; 200]);
        let (seam, work) = (&mut seam, &mut work);
        let answer = find(&mut picture, SIZE, FLAT, NamedAxis(1), seam, work);
        assert_eq!((answer, *seam), (Answer::served(10), [0, 1, 0]));
        let axis = NamedAxis(0);
        let answer = find(&mut picture, SIZE, FLAT, axis, seam, work);
        assert_eq!((answer, *seam), (Answer::served(0), [2, 2, 0]));
        let answer = find_marked(&mut picture, &mut marks, SIZE, FLAT, axis, seam, work);
        assert_eq!((answer, *seam), (Answer::served(10), [0, 1, 0]));
        let mut copy = picture;
        let answer = cut(&mut copy, SIZE, FLAT, axis, seam, work);
        assert_eq!((answer, copy), (Answer::served(0), [10, 10, 10, 50, 0, 0]));
        let answer = cut_marked(&mut picture, &mut marks, SIZE, FLAT, axis, seam, work);
        assert_eq!(answer, Answer::served(10));
        assert_eq!(picture, [10, 40, 10, 40, 0, 0]);
    }

    #[test]
    fn seams_of_the_worked_picture_by_forward() {
        let mut picture = [10, 10, 40, 10, 50, 40];
        let mut marks = [1, 0, 0, 0, 0, 2];
        let (mut seam, mut work) = ([9; 3], [9; 200]);
        let (seam, work) = (&mut seam, &mut work);
        let answer = find(&mut picture, SIZE, FORWARD, NamedAxis(1), seam, work);
        assert_eq!((answer, *seam), (Answer::served(40), [0, 0, 0]));
        let axis = NamedAxis(0);
        let answer = find(&mut picture, SIZE, FORWARD, axis, seam, work);
        assert_eq!((answer, *seam), (Answer::served(30), [0, 1, 0]));
        let answer = find_marked(&mut picture, &mut marks, SIZE, FORWARD, axis, seam, work);
        assert_eq!((answer, *seam), (Answer::served(40), [2, 2, 0]));
        let mut copy = picture;
        let answer = cut(&mut copy, SIZE, FORWARD, axis, seam, work);
        assert_eq!((answer, copy), (Answer::served(30), [10, 40, 10, 40, 0, 0]));
        let answer = cut_marked(&mut picture, &mut marks, SIZE, FORWARD, axis, seam, work);
        assert_eq!(answer, Answer::served(40));
        assert_eq!(picture, [10, 10, 10, 50, 0, 0]);
    }

    #[test]
    fn seams_of_the_worked_picture_by_marks() {
        let mut picture = [10, 10, 40, 10, 50, 40];
        let mut marks = [0, 2, 1, 0, 0, 0];
        let (mut seam, mut work) = ([9; 3], [9; 200]);
        let axis = NamedAxis(0);
        let answer = find_marked(
            &mut picture,
            &mut marks,
            SIZE,
            EDGE,
            axis,
            &mut seam,
            &mut work,
        );
        assert_eq!(answer, Answer::served(70 + 10));
        assert_eq!((seam, work), ([1, 2, 9], [0; 200]));
        let answer = cut_marked(
            &mut picture,
            &mut marks,
            SIZE,
            EDGE,
            axis,
            &mut seam,
            &mut work,
        );
        assert_eq!(answer, Answer::served(70 + 10));
        assert_eq!(picture, [10, 40, 10, 50, 0, 0]);
        assert_eq!(marks, [0, 1, 0, 0, 0, 0]);
        let answer = cut_marked(
            &mut picture,
            &mut marks[..5],
            SIZE,
            EDGE,
            axis,
            &mut seam,
            &mut work,
        );
        assert_eq!(answer, Answer::refused(4));
    }
}
