//! Seams of small pictures, found and cut, held against every connected path,
//! so that they don't rest on the reference alone.

use super::one_seam::{Case, Parts};
use super::{cut, cut_marked, find, find_marked};
use crate::difference::Difference;
use crate::faults::Faults;
use crate::library::Answer;
use crate::marks;
use crate::paths::Small;
use crate::random::Random;
use reference::{Axis, Kind, Method, Size};

/// The largest side. Every shape up to it comes in turn.
const SIDE: usize = 5;

pub fn compare_find(random: &mut Random, turn: u64) -> Result<u64, Difference> {
    compare(
        random,
        turn,
        marks::none,
        find_among_paths,
        find::by_library,
    )
}

pub fn compare_cut(random: &mut Random, turn: u64) -> Result<u64, Difference> {
    compare(random, turn, marks::none, cut_among_paths, cut::by_library)
}

pub fn compare_find_marked(random: &mut Random, turn: u64) -> Result<u64, Difference> {
    let library = find_marked::by_library;
    compare(random, turn, marks::each, find_among_paths, library)
}

pub fn compare_cut_marked(random: &mut Random, turn: u64) -> Result<u64, Difference> {
    let library = cut_marked::by_library;
    compare(random, turn, marks::each, cut_among_paths, library)
}

fn compare(
    random: &mut Random,
    turn: u64,
    marks: marks::Draw,
    enumeration: fn(Size, Method, Axis, Parts) -> Answer,
    library: fn(&Case, Parts) -> Answer,
) -> Result<u64, Difference> {
    let (size, axis) = shape(turn);
    let case = Case::from_size(random, size, axis, marks, Faults::Never);
    let method = case.method.known().expect("no fault strikes");
    let enumeration = |_: &Case, parts: Parts| enumeration(size, method, axis, parts);
    case.compare("enumeration", enumeration, library)
}

/// Every shape in both kinds and along both axes, by turns.
fn shape(turn: u64) -> (Size, Axis) {
    let (shape, form) = (turn as usize / 4 % (SIDE * SIDE), turn as usize % 4);
    let size = Size {
        width: 1 + shape % SIDE,
        height: 1 + shape / SIDE,
        kind: [Kind::Grey, Kind::Rgb][form / 2],
    };
    (size, [Axis::Vertical, Axis::Horizontal][form % 2])
}

fn find_among_paths(size: Size, method: Method, axis: Axis, parts: Parts) -> Answer {
    parts.work.fill(0);
    let Some((seam, cost)) = small(size, method, axis, &parts).seam() else {
        return Answer::refused(12);
    };
    give_seam(&seam, parts.seam);
    Answer::served(cost)
}

fn cut_among_paths(size: Size, method: Method, axis: Axis, parts: Parts) -> Answer {
    parts.work.fill(0);
    let small = small(size, method, axis, &parts);
    let Some((seam, cost)) = small.seam() else {
        return Answer::refused(12);
    };
    if small.places() == 1 {
        return Answer::refused(13);
    }
    let (picture, marks) = (small.without(&seam), small.marks_without(&seam));
    parts.picture.copy_from_slice(&picture);
    parts.marks.copy_from_slice(&marks);
    give_seam(&seam, parts.seam);
    Answer::served(cost)
}

fn small<'a>(size: Size, method: Method, axis: Axis, parts: &'a Parts) -> Small<'a> {
    Small {
        bytes: parts.picture,
        marks: parts.marks,
        size,
        method,
        axis,
    }
}

/// Puts the seam to the front of the space; the rest keeps its values.
fn give_seam(seam: &[usize], space: &mut [u16]) {
    for (entry, place) in space.iter_mut().zip(seam) {
        *entry = *place as u16;
    }
}

#[cfg(test)]
mod tests {
    use super::*;

    const TURNS: u64 = 10 * 4 * (SIDE * SIDE) as u64;

    #[test]
    fn every_shape_comes_in_both_kinds_and_along_both_axes() {
        let shapes: Vec<_> = (0..TURNS / 10).map(shape).collect();
        for (place, shape) in shapes.iter().enumerate() {
            assert!(!shapes[..place].contains(shape));
            let (size, _) = shape;
            assert!((1..=5).contains(&size.width) && (1..=5).contains(&size.height));
        }
    }

    #[test]
    fn cuts_are_served_or_refused_by_13() {
        let answer = |turn| {
            compare_cut(&mut Random::of_case(1, turn), turn)
                .ok()
                .unwrap()
        };
        let answers: Vec<u64> = (0..TURNS).map(answer).collect();
        assert!(answers.iter().all(|number| [0, 13].contains(number)));
        let refused = answers.iter().filter(|number| **number == 13).count();
        assert_eq!(refused as u64, TURNS / 5);
    }

    /// The other allowed paths that rank with the seam, and the seam.
    fn equals(turn: u64, marks: marks::Draw) -> Option<(Vec<Vec<usize>>, Vec<usize>)> {
        let (size, axis) = shape(turn);
        let mut random = Random::of_case(1, turn);
        let case = Case::from_size(&mut random, size, axis, marks, Faults::Never);
        let small = Small {
            bytes: case.buffers.picture.part(),
            marks: case.buffers.marks.part(),
            size,
            method: case.method.known().unwrap(),
            axis,
        };
        let (seam, _) = small.seam()?;
        let mut equals = small.paths();
        equals.retain(|path| small.count(path, 1) == 0 && *path != seam);
        equals.retain(|path| small.rank(path) == small.rank(&seam));
        Some((equals, seam))
    }

    /// How many cases along an axis have ties in the last line, and how many
    /// have ties on the way from there.
    fn ties(axis: u64, marks: marks::Draw) -> (u64, u64) {
        let turns = (0..TURNS).filter(|turn| turn % 2 == axis);
        let (mut in_last, mut before) = (0, 0);
        for (equals, seam) in turns.filter_map(|turn| equals(turn, marks)) {
            let same_end = |path: &Vec<usize>| path.last() == seam.last();
            before += equals.iter().any(same_end) as u64;
            in_last += !equals.iter().all(same_end) as u64;
        }
        (in_last, before)
    }

    #[test]
    fn ties_abound_along_both_axes() {
        for axis in 0..2 {
            let (in_last, before) = ties(axis, marks::none);
            assert!(
                in_last > TURNS / 10 && before > TURNS / 10,
                "{in_last} {before}"
            );
            let (in_last, before) = ties(axis, marks::each);
            assert!(
                in_last > TURNS / 20 && before > TURNS / 20,
                "{in_last} {before}"
            );
        }
    }
}
