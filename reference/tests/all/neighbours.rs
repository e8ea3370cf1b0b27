//! Energies by the wrong neighbours, made here on purpose: by each method the
//! library must differ from each of those that are wrong for it on some of the
//! random pictures, by its energies and by its seams.

use crate::definitions::*;
use crate::helpers::*;
use crate::wrong::differences;
use reference::{Axis, Method, Size};

/// The pixels that the pixel in row i and column j is held against.
type Neighbours = fn(Size, usize, usize) -> Vec<(usize, usize)>;

/// `Edge`: right and lower, in the last column left, in the last row upper.
fn edge(size: Size, i: usize, j: usize) -> Vec<(usize, usize)> {
    let mut all = Vec::new();
    if size.width > 1 {
        all.push((i, if j == size.width - 1 { j - 1 } else { j + 1 }));
    }
    if size.height > 1 {
        all.push((if i == size.height - 1 { i - 1 } else { i + 1 }, j));
    }
    all
}

/// `Flat`: nothing past the last column and the last row.
fn flat(size: Size, i: usize, j: usize) -> Vec<(usize, usize)> {
    let mut all = edge(size, i, j);
    all.retain(|(row, column)| *row >= i && *column >= j);
    all
}

/// `Flat` in the last column alone.
fn flat_last_column(size: Size, i: usize, j: usize) -> Vec<(usize, usize)> {
    let mut all = edge(size, i, j);
    all.retain(|(_, column)| *column >= j);
    all
}

/// `Flat` in the last row alone.
fn flat_last_row(size: Size, i: usize, j: usize) -> Vec<(usize, usize)> {
    let mut all = edge(size, i, j);
    all.retain(|(row, _)| *row >= i);
    all
}

/// In the corner the upper neighbour is left out.
fn corner_to_the_left(size: Size, i: usize, j: usize) -> Vec<(usize, usize)> {
    let mut all = edge(size, i, j);
    if (i, j) == (size.height - 1, size.width - 1) {
        all.retain(|(row, _)| *row == i);
    }
    all
}

/// In the corner the left neighbour is left out.
fn corner_upward(size: Size, i: usize, j: usize) -> Vec<(usize, usize)> {
    let mut all = edge(size, i, j);
    if (i, j) == (size.height - 1, size.width - 1) {
        all.retain(|(_, column)| *column == j);
    }
    all
}

/// The left neighbour at every column that has one.
fn left_everywhere(size: Size, i: usize, j: usize) -> Vec<(usize, usize)> {
    let mut all = edge(size, i, j);
    if j > 0 {
        all[0] = (i, j - 1);
    }
    all
}

/// The upper neighbour at every row that has one.
fn upper_everywhere(size: Size, i: usize, j: usize) -> Vec<(usize, usize)> {
    let mut all = edge(size, i, j);
    if i > 0 {
        *all.last_mut().unwrap() = (i - 1, j);
    }
    all
}

/// Nothing at all for a pixel of the last column or of the last row.
fn nothing_at_edges(size: Size, i: usize, j: usize) -> Vec<(usize, usize)> {
    let mut all = flat(size, i, j);
    if all.len() < 2 {
        all.clear();
    }
    all
}

/// The left and the upper neighbour, and nothing past the first ones.
fn left_and_upper(_: Size, i: usize, j: usize) -> Vec<(usize, usize)> {
    let left = j.checked_sub(1).map(|left| (i, left));
    let upper = i.checked_sub(1).map(|upper| (upper, j));
    left.into_iter().chain(upper).collect()
}

/// The picture as a full circle: after the last column and row the first ones.
fn first_after_last(size: Size, i: usize, j: usize) -> Vec<(usize, usize)> {
    vec![(i, (j + 1) % size.width), ((i + 1) % size.height, j)]
}

/// Those that are wrong for both methods.
const WRONG_NEIGHBOURS: [(&str, Neighbours); 9] = [
    ("flat last column", flat_last_column),
    ("flat last row", flat_last_row),
    ("corner to the left", corner_to_the_left),
    ("corner upward", corner_upward),
    ("left everywhere", left_everywhere),
    ("upper everywhere", upper_everywhere),
    ("nothing at edges", nothing_at_edges),
    ("left and upper", left_and_upper),
    ("first after last", first_after_last),
];

/// Each method, its neighbours, and those of the other one.
const RIGHT_NEIGHBOURS: [(Method, Neighbours, Neighbours); 2] =
    [(EDGE, edge, flat), (FLAT, flat, edge)];

/// What is wrong for each method.
fn all_wrong() -> impl Iterator<Item = (Method, &'static str, Neighbours)> {
    RIGHT_NEIGHBOURS.into_iter().flat_map(|(method, _, other)| {
        let other = [("the other rule", other)].into_iter();
        let all = other.chain(WRONG_NEIGHBOURS);
        all.map(move |(name, neighbours)| (method, name, neighbours))
    })
}

/// The energies by these neighbours, row by row.
fn energies_by(neighbours: Neighbours, picture: &[u8], size: Size) -> Vec<u64> {
    let bytes = channels(size.kind);
    let pixel = |i: usize, j: usize| &picture[(i * size.width + j) * bytes..][..bytes];
    let mut energies = Vec::new();
    for i in 0..size.height {
        for j in 0..size.width {
            let differences = neighbours(size, i, j)
                .into_iter()
                .flat_map(|(row, column)| {
                    let pairs = pixel(i, j).iter().zip(pixel(row, column));
                    pairs.map(|(a, b)| u64::from(a.abs_diff(*b)))
                });
            energies.push(differences.sum());
        }
    }
    energies
}

/// The energies that the library gives, row by row.
fn library_energies(picture: &[u8], size: Size, method: Method) -> Vec<u64> {
    let mut energies = Vec::new();
    for i in 0..size.height {
        let mut out = vec![OLD_ENERGY; size.width];
        reference::energies(picture, size, method, i, &mut out).unwrap();
        energies.extend(out.into_iter().map(u64::from));
    }
    energies
}

/// The seam by these neighbours: of all paths the first of the cheapest.
fn seam_by(neighbours: Neighbours, picture: &[u8], size: Size, axis: Axis) -> Vec<u16> {
    let energies = energies_by(neighbours, picture, size);
    let (length, breadth) = extent(size, axis);
    let cost = |path: &Vec<usize>| -> u64 {
        let steps = path.iter().rev().enumerate();
        let pixels = steps.map(|(line, place)| match axis {
            Axis::Vertical => line * size.width + place,
            Axis::Horizontal => place * size.width + line,
        });
        pixels.map(|pixel| energies[pixel]).sum()
    };
    // `min_by_key` gives the first of several, and the paths come in order.
    let seam = paths(length, breadth).into_iter().min_by_key(cost).unwrap();
    seam.iter().rev().map(|place| *place as u16).collect()
}

/// The way in which wrong energies are made here gives the right ones too.
#[test]
fn right_energies_by_neighbours() {
    for (method, neighbours, _) in RIGHT_NEIGHBOURS {
        let right = |picture: &[u8], size| library_energies(picture, size, method);
        let by_neighbours = |picture: &[u8], size| energies_by(neighbours, picture, size);
        assert_eq!(differences(85, right, by_neighbours), 0);
        for axis in AXES {
            let right = |picture: &[u8], size| found(picture, size, method, axis).0;
            let by_neighbours = |picture: &[u8], size| seam_by(neighbours, picture, size, axis);
            assert_eq!(differences(86, right, by_neighbours), 0);
        }
    }
}

#[test]
fn energies_by_wrong_neighbours() {
    for (method, name, neighbours) in all_wrong() {
        let right = |picture: &[u8], size| library_energies(picture, size, method);
        let wrong = |picture: &[u8], size| energies_by(neighbours, picture, size);
        let count = differences(85, right, wrong);
        assert!(count > 100, "{method:?}, {name}: {count}");
    }
}

/// Not only the energies, which one operation alone gives out, but the seams.
#[test]
fn seams_by_wrong_neighbours() {
    for (method, name, neighbours) in all_wrong() {
        for axis in AXES {
            let right = |picture: &[u8], size| found(picture, size, method, axis).0;
            let wrong = |picture: &[u8], size| seam_by(neighbours, picture, size, axis);
            let count = differences(86, right, wrong);
            assert!(count > 20, "{method:?}, {name}: {count}");
        }
    }
}

/// The vertical seam of a grey picture of three columns.
fn seam_of_three(neighbours: Neighbours, picture: &[u8]) -> Vec<u16> {
    let size = grey(3, picture.len() / 3);
    seam_by(neighbours, picture, size, Axis::Vertical)
}

/// Each on one picture. By `flat` the last column of the example goes first: its
/// energies are 0 70 0 / 40 10 0.
#[test]
fn pictures_that_show_a_wrong_edge() {
    let seam = seam_of_three;
    assert_eq!(seam(edge, &EXAMPLE), [0, 0]);
    assert_eq!(seam(flat, &EXAMPLE), [2, 2]);
    // 0 70 0 / 40 50 0.
    assert_eq!(seam(flat_last_column, &EXAMPLE), [2, 2]);
    // 0 70 30 / 40 10 10.
    assert_eq!(seam(flat_last_row, &EXAMPLE), [0, 1]);
    // 0 70 30 / 40 50 0.
    assert_eq!(seam(corner_upward, &EXAMPLE), [2, 2]);
    // 40 80 95 / 100 75 90 is right; to the left alone the corner has 5.
    let corner = [0, 30, 20, 10, 100, 105];
    assert_eq!(seam(edge, &corner), [0, 1]);
    assert_eq!(seam(corner_to_the_left, &corner), [1, 2]);
    // 50 10 10 is right, 50 50 10 is wrong.
    let row = [0, 50, 60];
    assert_eq!(seam(edge, &row), [1]);
    assert_eq!(seam(left_everywhere, &row), [2]);
    let turned = |neighbours| seam_by(neighbours, &row, grey(1, 3), Axis::Horizontal);
    assert_eq!(turned(edge), [1]);
    assert_eq!(turned(upper_everywhere), [2]);
    // 50 40 40 is right, 50 40 10 is wrong.
    assert_eq!(seam(edge, &[0, 50, 10]), [1]);
    assert_eq!(seam(first_after_last, &[0, 50, 10]), [2]);
}

/// By `flat` a pixel of the last row keeps its right difference, and one of the
/// last column its lower one.
#[test]
fn pictures_that_show_a_wrong_flat_edge() {
    // 5 5 0 is right.
    let row = [0, 5, 10];
    assert_eq!(seam_of_three(flat, &row), [2]);
    assert_eq!(seam_of_three(nothing_at_edges, &row), [0]);
    assert_eq!(seam_of_three(left_and_upper, &row), [0]);
    // 50 10 90 / 50 100 0 is right, 50 10 0 / 0 0 0 is wrong.
    let column = [0, 50, 60, 0, 50, 150];
    assert_eq!(seam_of_three(flat, &column), [1, 2]);
    assert_eq!(seam_of_three(nothing_at_edges, &column), [2, 1]);
}
