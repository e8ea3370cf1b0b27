//! Files of small pictures built and shown, each seam of the map held against
//! every connected path, so that they don't rest on the reference alone.

use super::every_cut::shape;
use super::one_file::{self, Gives};
use super::sides::Compared;
use super::{build, show};
use crate::carved::carved;
use crate::contents::samples;
use crate::difference::Difference;
use crate::faults::Faults;
use crate::library::{Answer, SizeAnswer};
use crate::methods;
use crate::paths::Small;
use crate::pictures::NamedSize;
use crate::random::Random;
use crate::ranges::{self, Range};
use crate::texts::Parts;
use reference::{Axis, Method, Size};

pub fn compare_build(random: &mut Random, turn: u64) -> Result<u64, Difference> {
    let size = shape(turn);
    let case = build::Case::from_size(random, size, Faults::Never);
    let method = case.method.known().expect("no fault strikes");
    let enumeration =
        |case: &build::Case, buffers: &mut _| build_by_paths(size, method, case.range, buffers);
    case.compare("enumeration", enumeration, build::by_library)
}

/// A picture as wide as the original or narrower, from a file whose map was
/// made from all paths. Where that isn't the map of the energy that the file
/// names, it is refused by 11: each of its seams is connected.
pub fn compare_show(random: &mut Random, turn: u64) -> Result<u64, Difference> {
    let (parts, is_own) = file(random, shape(turn));
    let count = random.between(0, parts.range.depth);
    let wanted = parts.size.width - count;
    let case = one_file::Case::of_file(random, &parts, wanted, Gives::WidthShown);
    let enumeration = |_: &one_file::Case, buffers: &mut one_file::Buffers| {
        buffers.work.part_mut().fill(0);
        if is_own {
            show_by_paths(&parts, count, buffers)
        } else {
            SizeAnswer::refused(11)
        }
    };
    case.compare("enumeration", enumeration, show::by_library)
}

/// A file whose map was made from all paths, by the energy that it names or by
/// another, and whether it is the map of its own energy.
fn file(random: &mut Random, size: Size) -> (Parts, bool) {
    let range = ranges::allowed(random, size, usize::MAX);
    let samples = samples(random, size);
    let (method, by) = (methods::drawn(random), methods::drawn(random));
    let map_by = |method| map(&samples, size, method, range.depth);
    let (map, own) = (map_by(by), map_by(method));
    let is_own = map == own;
    let parts = Parts {
        size,
        range,
        method,
        samples,
        map,
    };
    (parts, is_own)
}

fn build_by_paths(
    size: Size,
    method: Method,
    range: Range,
    buffers: &mut build::Buffers,
) -> Answer {
    buffers.work.part_mut().fill(0);
    let samples = buffers.picture.part().to_vec();
    let map = map(&samples, size, method, range.depth);
    let parts = Parts {
        size,
        range,
        method,
        samples,
        map,
    };
    let text = parts.text();
    buffers.out.part_mut()[..text.len()].copy_from_slice(&text);
    Answer::served(text.len() as u64)
}

/// What so many cuts leave of the picture.
fn show_by_paths(parts: &Parts, count: usize, buffers: &mut one_file::Buffers) -> SizeAnswer {
    let left = carved(&parts.samples, parts.size, parts.method, count, by_paths).0;
    buffers.out.part_mut()[..left.len()].copy_from_slice(&left);
    let width = parts.size.width - count;
    let size = Size {
        width,
        ..parts.size
    };
    SizeAnswer::served(NamedSize::of(size))
}

/// The map of so many seams, each with its number at the columns where its
/// pixels stood.
fn map(samples: &[u8], size: Size, method: Method, count: usize) -> Vec<Vec<u16>> {
    let taken = carved(samples, size, method, count, by_paths).1;
    let mut map = vec![vec![0; size.width]; size.height];
    for (row, columns) in map.iter_mut().zip(taken) {
        for (number, column) in (1..).zip(columns) {
            row[column] = number;
        }
    }
    map
}

/// The seam is the first of the cheapest of all paths.
fn by_paths(bytes: &[u8], size: Size, method: Method) -> (Vec<usize>, Vec<u8>) {
    let small = Small {
        bytes,
        marks: &[],
        size,
        method,
        axis: Axis::Vertical,
    };
    let (seam, _) = small.seam().expect("without marks there is a seam");
    let left = small.without(&seam);
    (seam, left)
}

#[cfg(test)]
mod tests {
    use super::*;
    use crate::methods::{EDGE, FLAT, FORWARD, METHODS};
    use crate::pictures::ROUND;
    use reference::Kind;

    #[test]
    fn the_worked_picture_by_paths() {
        let size = Size {
            width: 3,
            height: 2,
            kind: Kind::Grey,
        };
        let picture = [10, 10, 40, 10, 50, 40];
        assert_eq!(map(&picture, size, EDGE, 2), [[1, 0, 2], [1, 0, 2]]);
        assert_eq!(map(&picture, size, FLAT, 2), [[2, 0, 1], [0, 2, 1]]);
        assert_eq!(map(&picture, size, FORWARD, 2), [[1, 2, 0], [2, 1, 0]]);
        let left = |method, count| carved(&picture, size, method, count, by_paths).0;
        assert_eq!(left(EDGE, 1), [10, 40, 50, 40]);
        assert_eq!(left(EDGE, 2), [10, 50]);
        assert_eq!(left(FLAT, 1), [10, 10, 10, 50]);
        assert_eq!(left(FLAT, 2), [10, 10]);
        assert_eq!(left(FORWARD, 1), [10, 40, 10, 40]);
        assert_eq!(left(FORWARD, 2), [40, 40]);
        let wide = Size { height: 1, ..size };
        for method in METHODS {
            assert_eq!(map(&[9; 3], wide, method, 2), [[1, 2, 0]]);
        }
    }

    /// The reference accepts a file exactly where its map is that of its energy.
    #[test]
    fn files_have_the_map_of_any_energy() {
        let mut counts = [0; 2];
        for turn in 0..2 * ROUND {
            let (parts, is_own) = file(&mut Random::of_case(1, turn), shape(turn));
            let checked = reference::check(&parts.text(), &mut [0; 32 * 16]);
            assert_eq!(checked.err(), (!is_own).then_some(11));
            counts[usize::from(is_own)] += 1;
        }
        assert!(counts[0] > 40 && counts[1] > 200, "{counts:?}");
    }
}
