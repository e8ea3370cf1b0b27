//! Rules that hold a pixel against wrong neighbours. The pictures that are drawn
//! have to tell each of them from `edge` and `flat` by its seams.

use crate::contents::samples;
use crate::methods::{EDGE, FLAT};
use crate::paths::{backward, neighbours, Small};
use crate::random::Random;
use reference::{Axis, Kind, Method, Size};

/// The pixels, by row and column, that a pixel is held against.
type Rule = fn(Size, usize, usize) -> Vec<(usize, usize)>;

fn edge(size: Size, row: usize, column: usize) -> Vec<(usize, usize)> {
    neighbours(size, EDGE, row, column).to_vec()
}

fn flat(size: Size, row: usize, column: usize) -> Vec<(usize, usize)> {
    neighbours(size, FLAT, row, column).to_vec()
}

/// Each of the two methods, its rule, and that of the other one.
const RIGHT: [(Method, Rule, Rule); 2] = [(EDGE, edge, flat), (FLAT, flat, edge)];

fn is_corner(size: Size, row: usize, column: usize) -> bool {
    (row + 1, column + 1) == (size.height, size.width)
}

/// Those of `edge` that aren't above the pixel.
fn none_above(size: Size, row: usize, column: usize) -> Vec<(usize, usize)> {
    let mut others = edge(size, row, column);
    others.retain(|(other, _)| *other >= row);
    others
}

/// Those of `edge` that aren't to the left of the pixel.
fn none_left(size: Size, row: usize, column: usize) -> Vec<(usize, usize)> {
    let mut others = edge(size, row, column);
    others.retain(|(_, other)| *other >= column);
    others
}

/// Rules that are wrong for both methods.
const WRONG: [(&str, Rule); 6] = [
    ("flat last column", none_left),
    ("flat last row", none_above),
    ("corner to the left", |size, row, column| {
        let rule: Rule = if is_corner(size, row, column) {
            none_above
        } else {
            edge
        };
        rule(size, row, column)
    }),
    ("corner upward", |size, row, column| {
        let rule: Rule = if is_corner(size, row, column) {
            none_left
        } else {
            edge
        };
        rule(size, row, column)
    }),
    ("left everywhere", |size, row, column| {
        let [beside, below] = neighbours(size, EDGE, row, column);
        let left = column.checked_sub(1).map(|left| (row, left));
        vec![left.unwrap_or(beside), below]
    }),
    ("nothing at edges", |size, row, column| {
        let inside = row + 1 < size.height && column + 1 < size.width;
        let rule: Rule = if inside { flat } else { |_, _, _| Vec::new() };
        rule(size, row, column)
    }),
];

/// The seam of a small picture by the energies of this rule.
fn seam_by(small: &Small, rule: Rule) -> Vec<usize> {
    let energy = |(row, column)| small.differences(row, column, &rule(small.size, row, column));
    let cost = |path: &Vec<usize>| -> u64 { small.pixels(path).map(energy).sum() };
    let order = |path: &Vec<usize>| (cost(path), backward(path));
    small.paths().into_iter().min_by_key(order).unwrap()
}

/// In how many of 600 drawn pictures a library gives another seam than the method
/// does: also asked of those that are wrong by `forward` (`steps`).
pub fn told(seam: impl Fn(&Small) -> Vec<usize>, method: Method, axis: Axis) -> usize {
    let mut random = Random::new(7);
    let mut differ = || {
        let size = Size {
            width: random.between(1, 5),
            height: random.between(1, 5),
            kind: random.pick(&[Kind::Grey, Kind::Rgb]),
        };
        let small = Small {
            bytes: &samples(&mut random, size),
            marks: &[],
            size,
            method,
            axis,
        };
        seam(&small) != small.seam().unwrap().0
    };
    (0..600).filter(|_| differ()).count()
}

#[test]
fn wrong_neighbours_are_told_by_the_seams() {
    for axis in [Axis::Vertical, Axis::Horizontal] {
        for (method, right, other) in RIGHT {
            assert_eq!(told(|small| seam_by(small, right), method, axis), 0);
            for (name, rule) in WRONG.into_iter().chain([("the other", other)]) {
                let count = told(|small| seam_by(small, rule), method, axis);
                assert!(count > 20, "{method:?}, {name}: {count}");
            }
        }
    }
}
