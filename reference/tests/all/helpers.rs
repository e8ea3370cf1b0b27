//! Calls of the library with spaces that are longer than needed. Each helper
//! also judges the bytes of all that it lent.

use crate::definitions::{byte_count, size};
use crate::random::Random;
use reference::{Axis, EnergyRule, FileInfo, Kind, Method, Refusal, Size};

pub const AXES: [Axis; 2] = [Axis::Vertical, Axis::Horizontal];
pub const KINDS: [Kind; 2] = [Kind::Grey, Kind::Rgb];

pub const EDGE: Method = Method {
    energy: EnergyRule::Edge,
};
pub const FLAT: Method = Method {
    energy: EnergyRule::Flat,
};
pub const FORWARD: Method = Method {
    energy: EnergyRule::Forward,
};
pub const METHODS: [Method; 3] = [EDGE, FLAT, FORWARD];

/// Each method with each other one.
pub const PAIRS: [(Method, Method); 6] = [
    (EDGE, FLAT),
    (EDGE, FORWARD),
    (FLAT, EDGE),
    (FLAT, FORWARD),
    (FORWARD, EDGE),
    (FORWARD, FLAT),
];

/// Each method along each axis.
pub const WAYS: [(Method, Axis); 6] = [
    (EDGE, Axis::Vertical),
    (EDGE, Axis::Horizontal),
    (FLAT, Axis::Vertical),
    (FLAT, Axis::Horizontal),
    (FORWARD, Axis::Vertical),
    (FORWARD, Axis::Horizontal),
];

/// What spaces hold before a call.
pub const OLD_BYTE: u8 = 0xA5;
pub const OLD_NUMBER: u16 = 0xBEEF;
pub const OLD_ENERGY: u32 = 0xDEAD_BEEF;

/// The specification's 3 by 2 picture.
pub const EXAMPLE: [u8; 6] = [10, 10, 40, 10, 50, 40];

/// The file of that picture that `seams` writes, in full.
pub const EXAMPLE_FILE: &str = "(multi
(size 3 2 grey)
(range 2 1)
(energy edge)
(row 10 10 40)
(row 10 50 40)
(map 1 0 2)
(map 1 0 2)
)
";

/// The file of that picture with energy `flat`.
pub const FLAT_FILE: &str = "(multi
(size 3 2 grey)
(range 2 1)
(energy flat)
(row 10 10 40)
(row 10 50 40)
(map 2 0 1)
(map 0 2 1)
)
";

/// The file of that picture with energy `forward`.
pub const FORWARD_FILE: &str = "(multi
(size 3 2 grey)
(range 2 1)
(energy forward)
(row 10 10 40)
(row 10 50 40)
(map 1 2 0)
(map 2 1 0)
)
";

pub fn grey(width: usize, height: usize) -> Size {
    size(width, height, Kind::Grey)
}

pub fn rgb(width: usize, height: usize) -> Size {
    size(width, height, Kind::Rgb)
}

/// Work space of 32 bytes a pixel and some more, not zero.
pub fn work_space(size: Size) -> Vec<u8> {
    vec![OLD_BYTE; 32 * size.width * size.height + 5]
}

pub fn is_zero(bytes: &[u8]) -> bool {
    bytes.iter().all(|byte| *byte == 0)
}

/// A picture of a random size and kind with few distinct values.
pub fn random_picture(random: &mut Random, widest: usize, tallest: usize) -> (Vec<u8>, Size) {
    let size = Size {
        width: random.between(1, widest),
        height: random.between(1, tallest),
        kind: random.pick(&KINDS),
    };
    let values: &[u8] = random.pick(&[
        [0, 1, 0, 1].as_slice(),
        [0, 1, 2, 4].as_slice(),
        [0, 128, 255, 7].as_slice(),
        [3, 3, 3, 4].as_slice(),
    ]);
    (random.bytes(byte_count(size), values), size)
}

/// Marks for a size; some are thick with protected pixels, some thin.
pub fn random_marks(random: &mut Random, size: Size) -> Vec<u8> {
    let values: &[u8] = random.pick(&[
        [0, 0, 0, 1, 2].as_slice(),
        [0, 1, 1, 2].as_slice(),
        [0, 0, 2, 2].as_slice(),
        [1, 2].as_slice(),
        [0, 0, 0, 0, 0, 0, 1].as_slice(),
    ]);
    random.bytes(size.width * size.height, values)
}

/// Number of entries of a seam.
pub fn seam_length(size: Size, axis: Axis) -> usize {
    if axis == Axis::Vertical {
        size.height
    } else {
        size.width
    }
}

/// The three spaces that `step_costs` fills for a row.
pub fn step_costs_of(picture: &[u8], size: Size, method: Method, row: usize) -> [Vec<u32>; 3] {
    let mut spaces = [(); 3].map(|_| vec![OLD_ENERGY; size.width + 2]);
    let [left, up, right] = &mut spaces;
    reference::step_costs(picture, size, method, row, left, up, right).unwrap();
    for space in &mut spaces {
        assert_eq!(space.split_off(size.width), [OLD_ENERGY; 2]);
    }
    spaces
}

/// The seam that `find` gives.
pub fn found(picture: &[u8], size: Size, method: Method, axis: Axis) -> (Vec<u16>, u64) {
    let length = seam_length(size, axis);
    let mut seam = vec![OLD_NUMBER; length + 3];
    let mut work = work_space(size);
    let cost = reference::find(picture, size, method, axis, &mut seam, &mut work).unwrap();
    assert_eq!(seam.split_off(length), [OLD_NUMBER; 3]);
    assert!(is_zero(&work));
    (seam, cost)
}

/// The seam that `find_marked` gives, or its refusal.
pub fn found_marked(
    picture: &[u8],
    marks: &[u8],
    size: Size,
    method: Method,
    axis: Axis,
) -> Result<(Vec<u16>, u64), Refusal> {
    let length = seam_length(size, axis);
    let mut seam = vec![OLD_NUMBER; length + 3];
    let mut work = work_space(size);
    let answer = reference::find_marked(picture, marks, size, method, axis, &mut seam, &mut work);
    assert!(is_zero(&work));
    assert_eq!(seam.split_off(length), [OLD_NUMBER; 3]);
    if answer.is_err() {
        assert_eq!(seam, vec![OLD_NUMBER; length]);
    }
    answer.map(|cost| (seam, cost))
}

/// The lent picture after `cut`, the seam and the cost, or the refusal. A
/// refused cut must leave picture and seam space as they were.
pub fn cut_once(
    picture: &[u8],
    size: Size,
    method: Method,
    axis: Axis,
) -> Result<(Vec<u8>, Vec<u16>, u64), Refusal> {
    let length = seam_length(size, axis);
    let mut lent = picture.to_vec();
    let mut seam = vec![OLD_NUMBER; length + 3];
    let mut work = work_space(size);
    let answer = reference::cut(&mut lent, size, method, axis, &mut seam, &mut work);
    assert!(is_zero(&work));
    assert_eq!(seam.split_off(length), [OLD_NUMBER; 3]);
    if answer.is_err() {
        assert_eq!(seam, vec![OLD_NUMBER; length]);
        assert_eq!(lent, picture);
    }
    answer.map(|cost| (lent, seam, cost))
}

/// As `cut_once`, with marks.
#[allow(clippy::type_complexity)]
pub fn cut_marked_once(
    picture: &[u8],
    marks: &[u8],
    size: Size,
    method: Method,
    axis: Axis,
) -> Result<(Vec<u8>, Vec<u8>, Vec<u16>, u64), Refusal> {
    let length = seam_length(size, axis);
    let mut lent = picture.to_vec();
    let mut lent_marks = marks.to_vec();
    let mut seam = vec![OLD_NUMBER; length + 3];
    let mut work = work_space(size);
    let answer = reference::cut_marked(
        &mut lent,
        &mut lent_marks,
        size,
        method,
        axis,
        &mut seam,
        &mut work,
    );
    assert!(is_zero(&work));
    assert_eq!(seam.split_off(length), [OLD_NUMBER; 3]);
    if answer.is_err() {
        assert_eq!(seam, vec![OLD_NUMBER; length]);
        assert_eq!(lent, picture);
        assert_eq!(lent_marks, marks);
    }
    answer.map(|cost| (lent, lent_marks, seam, cost))
}

/// The file that `build` writes.
pub fn built(
    picture: &[u8],
    size: Size,
    method: Method,
    depth: usize,
    growth: usize,
) -> Result<Vec<u8>, Refusal> {
    let space = 64 + 64 * size.height + 24 * size.width * size.height;
    let mut out = vec![OLD_BYTE; space];
    let mut work = work_space(size);
    let answer = reference::build(picture, size, method, depth, growth, &mut out, &mut work);
    match answer {
        Ok(length) => {
            assert!(is_zero(&work));
            assert!(out.split_off(length).iter().all(|byte| *byte == OLD_BYTE));
            Ok(out)
        }
        Err(number) => {
            assert!(work.iter().chain(&out).all(|byte| *byte == OLD_BYTE));
            Err(number)
        }
    }
}

/// Work space enough for any file that tests bring.
fn file_work() -> Vec<u8> {
    vec![OLD_BYTE; 32 * 1_024]
}

/// Work space must be as it was after 1 to 8, and zero after success and
/// after 9 and above.
pub fn judge_work_after<T>(work: &[u8], answer: &Result<T, Refusal>) {
    match answer {
        Err(1..=8) => assert!(work.iter().all(|byte| *byte == OLD_BYTE)),
        _ => assert!(is_zero(work)),
    }
}

/// What `check` says of a file.
pub fn checked(file: &[u8]) -> Result<FileInfo, Refusal> {
    let mut work = file_work();
    let answer = reference::check(file, &mut work);
    judge_work_after(&work, &answer);
    answer
}

/// What `read` gives: the numbers, the picture and the map.
pub fn read_back(file: &[u8]) -> Result<(FileInfo, Vec<u8>, Vec<u16>), Refusal> {
    let mut work = file_work();
    let mut picture = vec![OLD_BYTE; 3 * 1_024];
    let mut map = vec![OLD_NUMBER; 1_024];
    let answer = reference::read(file, &mut picture, &mut map, &mut work);
    judge_work_after(&work, &answer);
    let pixels = answer.map_or(0, |info| info.size.width * info.size.height);
    let bytes = answer.map_or(0, |info| byte_count(info.size));
    assert!(picture
        .split_off(bytes)
        .iter()
        .all(|byte| *byte == OLD_BYTE));
    assert!(map
        .split_off(pixels)
        .iter()
        .all(|number| *number == OLD_NUMBER));
    answer.map(|info| (info, picture, map))
}

/// What `show` gives: the size and the picture.
pub fn shown(file: &[u8], width: usize) -> Result<(Size, Vec<u8>), Refusal> {
    let mut work = file_work();
    let mut out = vec![OLD_BYTE; 3 * 2_048];
    let answer = reference::show(file, width, &mut out, &mut work);
    judge_work_after(&work, &answer);
    let bytes = answer.map_or(0, byte_count);
    assert!(out.split_off(bytes).iter().all(|byte| *byte == OLD_BYTE));
    answer.map(|size| (size, out))
}
