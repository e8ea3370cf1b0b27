//! Objects removed from small pictures, and small pictures retargeted, each cut
//! held against every connected path, so that they don't rest on the reference
//! alone.

use super::sides::Compared;
use super::{remove, retarget};
use crate::difference::Difference;
use crate::faults::Faults;
use crate::library::{Answer, Ended};
use crate::paths::Small;
use crate::pictures::byte_count;
use crate::random::Random;
use reference::{Axis, Kind, Method, Size};

/// The largest side. Every shape up to it comes in turn.
const SIDE: usize = 4;

pub fn compare_remove(random: &mut Random, turn: u64) -> Result<u64, Difference> {
    let size = shape(turn);
    let case = remove::Case::from_size(random, size, Faults::Never);
    let method = case.method.known().expect("no fault strikes");
    let enumeration =
        |case: &remove::Case, buffers: &mut _| remove_by_paths(size, method, case.budget, buffers);
    case.compare("enumeration", enumeration, remove::by_library)
}

pub fn compare_retarget(random: &mut Random, turn: u64) -> Result<u64, Difference> {
    let size = shape(turn);
    let case = retarget::Case::from_size(random, size, Faults::Never);
    let method = case.method.known().expect("no fault strikes");
    let enumeration = |case: &retarget::Case, buffers: &mut _| {
        retarget_by_paths(size, method, case.rows.0, case.columns.0, buffers)
    };
    case.compare("enumeration", enumeration, retarget::by_library)
}

/// Every shape in both kinds, by turns.
pub fn shape(turn: u64) -> Size {
    let shape = turn as usize / 2 % (SIDE * SIDE);
    Size {
        width: 1 + shape % SIDE,
        height: 1 + shape / SIDE,
        kind: [Kind::Grey, Kind::Rgb][turn as usize % 2],
    }
}

fn remove_by_paths(
    size: Size,
    method: Method,
    budget: u16,
    buffers: &mut remove::Buffers,
) -> Ended {
    buffers.work.part_mut().fill(0);
    let mut bytes = buffers.picture.part().to_vec();
    let mut marks = buffers.marks.part().to_vec();
    let (mut left, mut count) = (size, 0);
    let ending = loop {
        if !marks.contains(&2) {
            break 1;
        }
        if left.width == 1 {
            break 2;
        }
        if count == budget {
            break 3;
        }
        let small = Small {
            bytes: &bytes,
            marks: &marks,
            size: left,
            method,
            axis: Axis::Vertical,
        };
        let Some((seam, _)) = small.seam() else {
            break 4;
        };
        (bytes, marks) = (small.without(&seam), small.marks_without(&seam));
        left.width -= 1;
        bytes.truncate(byte_count(left));
        marks.truncate(left.width * left.height);
        count += 1;
    };
    pack(&bytes, buffers.picture.part_mut());
    pack(&marks, buffers.marks.part_mut());
    Ended::served(ending, u64::from(count))
}

/// What is left at the front of the buffer, and 0 for each byte that is free.
fn pack(left: &[u8], buffer: &mut [u8]) {
    buffer.fill(0);
    buffer[..left.len()].copy_from_slice(left);
}

fn retarget_by_paths(
    size: Size,
    method: Method,
    rows: usize,
    columns: usize,
    buffers: &mut retarget::Buffers,
) -> Answer {
    buffers.work.part_mut().fill(0);
    let (bytes, total) = cell(buffers.picture.part(), size, method, rows, columns);
    buffers.out.part_mut()[..bytes.len()].copy_from_slice(&bytes);
    Answer::served(total)
}

/// The picture and the total of a cell of the table, worked out anew from the
/// cells before it.
fn cell(bytes: &[u8], size: Size, method: Method, rows: usize, columns: usize) -> (Vec<u8>, u64) {
    let cut = |rows, columns, axis| {
        let (bytes, total) = cell(bytes, size, method, rows, columns);
        let size = Size {
            width: size.width - columns,
            height: size.height - rows,
            kind: size.kind,
        };
        cut_from(&bytes, size, method, axis, total)
    };
    match (rows, columns) {
        (0, 0) => (bytes.to_vec(), 0),
        (0, c) => cut(0, c - 1, Axis::Vertical),
        (r, 0) => cut(r - 1, 0, Axis::Horizontal),
        (r, c) => {
            let vertical = cut(r, c - 1, Axis::Vertical);
            let horizontal = cut(r - 1, c, Axis::Horizontal);
            if horizontal.1 < vertical.1 {
                horizontal
            } else {
                vertical
            }
        }
    }
}

/// A picture after a cut along the axis, and its total, which grows by the cost.
fn cut_from(bytes: &[u8], size: Size, method: Method, axis: Axis, total: u64) -> (Vec<u8>, u64) {
    let small = Small {
        bytes,
        marks: &[],
        size,
        method,
        axis,
    };
    let (seam, cost) = small.seam().expect("without marks there is a seam");
    let mut left = small.without(&seam);
    let freed = seam.len() * bytes.len() / (size.width * size.height);
    left.truncate(bytes.len() - freed);
    (left, total + cost)
}

#[cfg(test)]
mod tests {
    use super::*;
    use crate::methods::{EDGE, FLAT, FORWARD};
    use crate::spaces::Lent;

    #[test]
    fn every_shape_comes_in_both_kinds() {
        let shapes: Vec<_> = (0..2 * (SIDE * SIDE) as u64).map(shape).collect();
        for (place, shape) in shapes.iter().enumerate() {
            assert!(!shapes[..place].contains(shape));
        }
    }

    #[test]
    fn every_ending_occurs() {
        let mut endings = [0; 5];
        for turn in 0..640 {
            let size = shape(turn);
            let mut random = Random::of_case(1, turn);
            let case = remove::Case::from_size(&mut random, size, Faults::Never);
            let method = case.method.known().unwrap();
            let enumeration = |case: &remove::Case, buffers: &mut _| {
                let ended = remove_by_paths(size, method, case.budget, buffers);
                endings[ended.ending as usize] += 1;
                ended
            };
            let compared = case.compare("enumeration", enumeration, remove::by_library);
            assert!(compared.is_ok());
        }
        assert!(endings[1..].iter().all(|count| *count > 20), "{endings:?}");
    }

    #[test]
    fn the_worked_picture_by_paths() {
        let size = Size {
            width: 3,
            height: 2,
            kind: Kind::Grey,
        };
        let picture = [10, 10, 40, 10, 50, 40];
        let mut random = Random::new(1);
        let mut lent = |bytes: &[u8]| Lent::holding(&mut random, bytes);
        let mut buffers = remove::Buffers {
            picture: lent(&picture),
            marks: lent(&[0, 2, 1, 0, 0, 0]),
            work: lent(&[9; 2]),
        };
        let ended = remove_by_paths(size, EDGE, 5, &mut buffers);
        assert_eq!(ended, Ended::served(1, 1));
        assert_eq!(buffers.picture.part(), [10, 40, 10, 50, 0, 0]);
        assert_eq!(buffers.marks.part(), [0, 1, 0, 0, 0, 0]);
        assert_eq!(buffers.work.part(), [0, 0]);
        assert_eq!(cell(&picture, size, EDGE, 0, 2), (vec![10, 50], 40 + 40));
        // Rows first: rows 0, 1, 1 at 0 + 50 + 10, then column 0 of 10 10 40.
        assert_eq!(cell(&picture, size, EDGE, 1, 1), (vec![10, 40], 60));
        assert_eq!(cell(&picture, size, FLAT, 0, 2), (vec![10, 10], 0));
        // Columns first: 10 10 / 10 50 is left, then rows 0, 1.
        assert_eq!(cell(&picture, size, FLAT, 1, 1), (vec![10, 10], 0));
        assert_eq!(cell(&picture, size, FORWARD, 0, 2), (vec![40, 40], 30 + 60));
        // Columns first: 10 40 / 10 40 is left, then either row at 0.
        assert_eq!(cell(&picture, size, FORWARD, 1, 1), (vec![10, 40], 30));
    }
}
