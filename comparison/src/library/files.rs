//! The operations on multi-size files.

use super::Answer;
use crate::methods::NamedMethod;
use crate::pictures::NamedSize;
use crate::ranges::Range;
use std::fmt;

/// The number of a refusal and 0 in all else, or number 0 and what the file
/// says of its picture.
#[repr(C)]
#[derive(Clone, Copy, Debug, PartialEq, Eq)]
pub struct FileAnswer {
    pub number: u64,
    pub size: NamedSize,
    pub method: NamedMethod,
    pub depth: u64,
    pub growth: u64,
}

impl FileAnswer {
    pub fn refused(number: u64) -> FileAnswer {
        FileAnswer {
            number,
            size: NamedSize::NONE,
            method: NamedMethod::NONE,
            depth: 0,
            growth: 0,
        }
    }

    pub fn served(size: NamedSize, method: NamedMethod, range: Range) -> FileAnswer {
        FileAnswer {
            number: 0,
            size,
            method,
            depth: range.depth as u64,
            growth: range.growth as u64,
        }
    }
}

impl fmt::Display for FileAnswer {
    fn fmt(&self, f: &mut fmt::Formatter) -> fmt::Result {
        let FileAnswer { depth, growth, .. } = self;
        write!(f, "number {}, {}, {}", self.number, self.size, self.method)?;
        write!(f, ", depth {depth}, growth {growth}")
    }
}

/// The number of a refusal and 0 in all else, or number 0 and the size of the
/// picture shown.
#[repr(C)]
#[derive(Clone, Copy, Debug, PartialEq, Eq)]
pub struct SizeAnswer {
    pub number: u64,
    pub size: NamedSize,
}

impl SizeAnswer {
    pub fn refused(number: u64) -> SizeAnswer {
        SizeAnswer {
            number,
            size: NamedSize::NONE,
        }
    }

    pub fn served(size: NamedSize) -> SizeAnswer {
        SizeAnswer { number: 0, size }
    }
}

impl fmt::Display for SizeAnswer {
    fn fmt(&self, f: &mut fmt::Formatter) -> fmt::Result {
        write!(f, "number {}, {}", self.number, self.size)
    }
}

extern "C" {
    fn multisize_build(
        picture: *const u8,
        picture_len: usize,
        size: NamedSize,
        method: NamedMethod,
        depth: usize,
        growth: usize,
        out: *mut u8,
        out_len: usize,
        work: *mut u8,
        work_len: usize,
    ) -> Answer;

    fn multisize_check(
        file: *const u8,
        file_len: usize,
        work: *mut u8,
        work_len: usize,
    ) -> FileAnswer;

    fn multisize_read(
        file: *const u8,
        file_len: usize,
        picture: *mut u8,
        picture_len: usize,
        map: *mut u16,
        map_len: usize,
        work: *mut u8,
        work_len: usize,
    ) -> FileAnswer;

    fn multisize_show(
        file: *const u8,
        file_len: usize,
        wanted: usize,
        out: *mut u8,
        out_len: usize,
        work: *mut u8,
        work_len: usize,
    ) -> SizeAnswer;

    fn multisize_row_at(
        samples: *const u8,
        samples_len: usize,
        kind: u8,
        numbers: *const u16,
        numbers_len: usize,
        wanted: usize,
        out: *mut u8,
        out_len: usize,
    ) -> Answer;
}

/// The picture's file at the front of `out`; the value is its length.
pub fn build(
    picture: &mut [u8],
    size: NamedSize,
    method: NamedMethod,
    range: Range,
    out: &mut [u8],
    work: &mut [u8],
) -> Answer {
    // Each pointer comes with the length of its slice; the slices don't overlap.
    unsafe {
        multisize_build(
            picture.as_mut_ptr(),
            picture.len(),
            size,
            method,
            range.depth,
            range.growth,
            out.as_mut_ptr(),
            out.len(),
            work.as_mut_ptr(),
            work.len(),
        )
    }
}

pub fn check(file: &mut [u8], work: &mut [u8]) -> FileAnswer {
    // Both pointers come with the lengths of their slices, which don't overlap.
    unsafe { multisize_check(file.as_mut_ptr(), file.len(), work.as_mut_ptr(), work.len()) }
}

/// The file's picture and map at the fronts of `picture` and `map`.
pub fn read(file: &mut [u8], picture: &mut [u8], map: &mut [u16], work: &mut [u8]) -> FileAnswer {
    // Each pointer comes with the length of its slice; the slices don't overlap.
    unsafe {
        multisize_read(
            file.as_mut_ptr(),
            file.len(),
            picture.as_mut_ptr(),
            picture.len(),
            map.as_mut_ptr(),
            map.len(),
            work.as_mut_ptr(),
            work.len(),
        )
    }
}

/// The picture at the wanted width at the front of `out`.
pub fn show(file: &mut [u8], wanted: usize, out: &mut [u8], work: &mut [u8]) -> SizeAnswer {
    // Each pointer comes with the length of its slice; the slices don't overlap.
    unsafe {
        multisize_show(
            file.as_mut_ptr(),
            file.len(),
            wanted,
            out.as_mut_ptr(),
            out.len(),
            work.as_mut_ptr(),
            work.len(),
        )
    }
}

/// A row at the wanted width at the front of `out`; the value is its length.
pub fn row_at(
    samples: &mut [u8],
    kind: u8,
    numbers: &mut [u16],
    wanted: usize,
    out: &mut [u8],
) -> Answer {
    // Each pointer comes with the length of its slice; the slices don't overlap.
    unsafe {
        multisize_row_at(
            samples.as_mut_ptr(),
            samples.len(),
            kind,
            numbers.as_mut_ptr(),
            numbers.len(),
            wanted,
            out.as_mut_ptr(),
            out.len(),
        )
    }
}

#[cfg(test)]
mod tests {
    use super::*;
    use crate::methods::{EDGE, FLAT, FORWARD};

    const SIZE: NamedSize = NamedSize {
        width: 3,
        height: 2,
        kind: 0,
    };
    const RANGE: Range = Range {
        depth: 2,
        growth: 1,
    };
    const EDGE_FILE: &[u8] = b"(multi\n(size 3 2 grey)\n(range 2 1)\n(energy edge)\n\
        (row 10 10 40)\n(row 10 50 40)\n(map 1 0 2)\n(map 1 0 2)\n)\n";
    const FLAT_FILE: &[u8] = b"(multi\n(size 3 2 grey)\n(range 2 1)\n(energy flat)\n\
        (row 10 10 40)\n(row 10 50 40)\n(map 2 0 1)\n(map 0 2 1)\n)\n";
    const FORWARD_FILE: &[u8] = b"(multi\n(size 3 2 grey)\n(range 2 1)\n(energy forward)\n\
        (row 10 10 40)\n(row 10 50 40)\n(map 1 2 0)\n(map 2 1 0)\n)\n";

    #[test]
    fn files_of_the_worked_picture() {
        for (method, file) in [
            (EDGE, EDGE_FILE),
            (FLAT, FLAT_FILE),
            (FORWARD, FORWARD_FILE),
        ] {
            let mut picture = [10, 10, 40, 10, 50, 40];
            let (mut out, mut work) = ([9; 120], [9; 200]);
            let method = NamedMethod::of(method);
            let answer = build(&mut picture, SIZE, method, RANGE, &mut out, &mut work);
            assert_eq!(answer, Answer::served(file.len() as u64));
            assert_eq!((&out[..file.len()], out[file.len()]), (file, 9));
            assert_eq!(work, [0; 200]);
            let deeper = Range { depth: 3, ..RANGE };
            let mut call = |method| build(&mut picture, SIZE, method, deeper, &mut out, &mut work);
            assert_eq!(call(method), Answer::refused(6));
            assert_eq!(call(NamedMethod { energy: 3 }), Answer::refused(1));
        }
    }

    #[test]
    fn worked_files_checked_and_read() {
        for (method, file, numbers) in [
            (EDGE, EDGE_FILE, [1, 0, 2, 1, 0, 2, 9]),
            (FLAT, FLAT_FILE, [2, 0, 1, 0, 2, 1, 9]),
            (FORWARD, FORWARD_FILE, [1, 2, 0, 2, 1, 0, 9]),
        ] {
            let (mut file, mut work) = (file.to_vec(), [9; 200]);
            let served = FileAnswer::served(SIZE, NamedMethod::of(method), RANGE);
            assert_eq!(check(&mut file, &mut work), served);
            assert_eq!(check(&mut file[1..], &mut work), FileAnswer::refused(1));
            let (mut picture, mut map) = ([9; 7], [9; 7]);
            let answer = read(&mut file, &mut picture, &mut map, &mut work);
            assert_eq!(answer, served);
            assert_eq!(picture, [10, 10, 40, 10, 50, 40, 9]);
            assert_eq!(map, numbers);
            let answer = read(&mut file, &mut picture, &mut map[..5], &mut work);
            assert_eq!(answer, FileAnswer::refused(8));
        }
    }

    /// With another word a file has the map of another energy.
    #[test]
    fn worked_files_with_another_word() {
        for file in [EDGE_FILE, FLAT_FILE, FORWARD_FILE] {
            let text = str::from_utf8(file).unwrap();
            let (head, rest) = text.split_once("(energy ").unwrap();
            let (own, rest) = rest.split_once(')').unwrap();
            for word in ["edge", "flat", "forward"] {
                let text = format!("{head}(energy {word}){rest}");
                let answer = check(&mut text.into_bytes(), &mut [9; 200]);
                let expected = if word == own { 0 } else { 11 };
                assert_eq!(answer.number, expected, "{own} as {word}");
            }
        }
    }

    #[test]
    fn worked_files_shown() {
        for (file, shown) in [
            (EDGE_FILE, [10, 10, 10, 40, 10, 30, 50, 40, 9]),
            (FLAT_FILE, [10, 10, 25, 40, 10, 50, 45, 40, 9]),
            (FORWARD_FILE, [10, 10, 10, 40, 10, 50, 45, 40, 9]),
        ] {
            let (mut file, mut out, mut work) = (file.to_vec(), [9; 9], [9; 200]);
            let answer = show(&mut file, 4, &mut out, &mut work);
            assert_eq!(answer, SizeAnswer::served(NamedSize { width: 4, ..SIZE }));
            assert_eq!(out, shown);
            let answer = show(&mut file, 5, &mut out, &mut work);
            assert_eq!(answer, SizeAnswer::refused(7));
        }
    }

    #[test]
    fn worked_row_shown() {
        let (mut samples, mut numbers, mut out) = ([10, 50, 40], [1, 0, 2], [9; 4]);
        let mut call = |kind, wanted| row_at(&mut samples, kind, &mut numbers, wanted, &mut out);
        assert_eq!(call(0, 4), Answer::served(4));
        assert_eq!(call(1, 4), Answer::refused(4));
        assert_eq!(call(2, 4), Answer::refused(1));
        assert_eq!(call(0, 6), Answer::refused(8));
        assert_eq!(out, [10, 30, 50, 40]);
    }
}
