//! Object removal.

use crate::methods::NamedMethod;
use crate::pictures::NamedSize;
use std::fmt;

/// The number of a refusal and twice 0, or number 0, how the removal ended and
/// the count of seams cut.
#[repr(C)]
#[derive(Clone, Copy, Debug, PartialEq, Eq)]
pub struct Ended {
    pub number: u64,
    /// 1 is done, 2 narrow, 3 spent, 4 blocked.
    pub ending: u64,
    pub count: u64,
}

impl Ended {
    pub fn refused(number: u64) -> Ended {
        Ended {
            number,
            ending: 0,
            count: 0,
        }
    }

    pub fn served(ending: u64, count: u64) -> Ended {
        Ended {
            number: 0,
            ending,
            count,
        }
    }
}

impl fmt::Display for Ended {
    fn fmt(&self, f: &mut fmt::Formatter) -> fmt::Result {
        let Ended {
            number,
            ending,
            count,
        } = self;
        write!(f, "number {number}, ending {ending}, count {count}")
    }
}

extern "C" {
    fn multisize_remove(
        picture: *mut u8,
        picture_len: usize,
        marks: *mut u8,
        marks_len: usize,
        size: NamedSize,
        method: NamedMethod,
        budget: u16,
        work: *mut u8,
        work_len: usize,
    ) -> Ended;
}

/// At most `budget` vertical seams cut by the marks; what is left stands at the
/// front of `picture` and `marks`.
pub fn remove(
    picture: &mut [u8],
    marks: &mut [u8],
    size: NamedSize,
    method: NamedMethod,
    budget: u16,
    work: &mut [u8],
) -> Ended {
    // Each pointer comes with the length of its slice; the slices don't overlap.
    unsafe {
        multisize_remove(
            picture.as_mut_ptr(),
            picture.len(),
            marks.as_mut_ptr(),
            marks.len(),
            size,
            method,
            budget,
            work.as_mut_ptr(),
            work.len(),
        )
    }
}

#[cfg(test)]
mod tests {
    use super::*;

    const SIZE: NamedSize = NamedSize {
        width: 3,
        height: 2,
        kind: 0,
    };
    const EDGE: NamedMethod = NamedMethod { energy: 0 };
    const FLAT: NamedMethod = NamedMethod { energy: 1 };
    const FORWARD: NamedMethod = NamedMethod { energy: 2 };
    const UNKNOWN: NamedMethod = NamedMethod { energy: 3 };

    #[test]
    fn removal_from_the_worked_picture() {
        let mut picture = [10, 10, 40, 10, 50, 40];
        let mut marks = [0, 2, 1, 0, 0, 0];
        let mut work = [9; 200];
        let ended = remove(&mut picture, &mut marks, SIZE, EDGE, 0, &mut work);
        assert_eq!((ended, work), (Ended::served(3, 0), [0; 200]));
        let ended = remove(&mut picture, &mut marks, SIZE, EDGE, 65535, &mut work);
        assert_eq!(ended, Ended::served(1, 1));
        assert_eq!(picture, [10, 40, 10, 50, 0, 0]);
        assert_eq!(marks, [0, 1, 0, 0, 0, 0]);
        let mut call = |method| remove(&mut picture, &mut marks[..5], SIZE, method, 1, &mut work);
        assert_eq!(call(EDGE), Ended::refused(4));
        assert_eq!(call(UNKNOWN), Ended::refused(1));
    }

    /// By `edge` columns 0, 0 take the mark at cost 0 + 40, by `flat` columns 0, 1
    /// at 0 + 10, by `forward` the same at 0 + 30.
    #[test]
    fn removal_by_each_energy() {
        for (method, left) in [
            (EDGE, [10, 40, 50, 40, 0, 0]),
            (FLAT, [10, 40, 10, 40, 0, 0]),
            (FORWARD, [10, 40, 10, 40, 0, 0]),
        ] {
            let mut picture = [10, 10, 40, 10, 50, 40];
            let mut marks = [2, 0, 0, 0, 0, 0];
            let ended = remove(&mut picture, &mut marks, SIZE, method, 1, &mut [9; 200]);
            assert_eq!(ended, Ended::served(1, 1));
            assert_eq!(picture, left);
        }
    }

    #[test]
    fn removal_from_a_column_and_behind_a_wall() {
        let mut work = [9; 200];
        let column = NamedSize { width: 1, ..SIZE };
        let ended = remove(&mut [10, 20], &mut [0, 2], column, EDGE, 0, &mut work);
        assert_eq!(ended, Ended::served(2, 0));
        let mut marks = [2, 0, 2, 1, 1, 1];
        let ended = remove(&mut [0; 6], &mut marks, SIZE, EDGE, 7, &mut work);
        assert_eq!(ended, Ended::served(4, 0));
    }
}
