//! Forward costs that are wrong, made here on purpose: the library must differ
//! from each of them on some of the random pictures by its seams.

use crate::definitions::*;
use crate::helpers::*;
use crate::wrong::differences;
use reference::{Axis, Size};

/// The lines of a picture along an axis, each of pixels.
type Lines = Vec<Vec<Vec<u8>>>;

/// What a path pays for the pixel of a line and a place that it comes to from a
/// place of the line before.
type Cost = fn(&Lines, (usize, usize), Option<usize>) -> u64;

fn lines(picture: &[u8], size: Size, axis: Axis) -> Lines {
    let (length, breadth) = extent(size, axis);
    let bytes = channels(size.kind);
    let pixel = |line, place| {
        let (i, j) = pixel_at(axis, line, place);
        picture[(i * size.width + j) * bytes..][..bytes].to_vec()
    };
    let line = |line| (0..breadth).map(|place| pixel(line, place)).collect();
    (0..length).map(line).collect()
}

fn apart(one: &[u8], other: &[u8]) -> u64 {
    let pairs = one.iter().zip(other);
    pairs.map(|(a, b)| u64::from(a.abs_diff(*b))).sum()
}

/// The neighbours in the line, the pixel itself past the ends.
fn sides(line: &[Vec<u8>], place: usize) -> [&[u8]; 2] {
    let last = line.len() - 1;
    [&line[place.max(1) - 1], &line[last.min(place + 1)]]
}

/// The neighbour on the side that a path comes from, if it comes from a side.
fn side_of(lines: &Lines, (line, place): (usize, usize), from: Option<usize>) -> Option<&[u8]> {
    let [before, after] = sides(&lines[line], place);
    let from = from.filter(|from| *from != place)?;
    Some(if from < place { before } else { after })
}

fn across(lines: &Lines, (line, place): (usize, usize)) -> u64 {
    let [before, after] = sides(&lines[line], place);
    apart(before, after)
}

/// C_L, C_U or C_R, and C_U in the first line.
fn forward(lines: &Lines, at: (usize, usize), from: Option<usize>) -> u64 {
    let aside = side_of(lines, at, from).map_or(0, |side| apart(&lines[at.0 - 1][at.1], side));
    across(lines, at) + aside
}

/// C_L for a path that comes from the right, and C_R for one from the left.
fn exchanged(lines: &Lines, at: (usize, usize), from: Option<usize>) -> u64 {
    let [before, after] = sides(&lines[at.0], at.1);
    let other = |from: usize| if from < at.1 { after } else { before };
    let from = from.filter(|from| *from != at.1);
    let aside = from.map_or(0, |from| apart(&lines[at.0 - 1][at.1], other(from)));
    across(lines, at) + aside
}

/// C_U whichever way a path comes.
fn up_alone(lines: &Lines, at: (usize, usize), _: Option<usize>) -> u64 {
    across(lines, at)
}

/// C_L in the first line, with the last line above it.
fn line_above_the_first(lines: &Lines, at: (usize, usize), from: Option<usize>) -> u64 {
    if at.0 > 0 {
        return forward(lines, at, from);
    }
    let [before, _] = sides(&lines[0], at.1);
    across(lines, at) + apart(&lines[lines.len() - 1][at.1], before)
}

/// No difference to a neighbour past the side edge.
fn nothing_past_the_side(lines: &Lines, at: (usize, usize), from: Option<usize>) -> u64 {
    let inside = at.1 > 0 && at.1 + 1 < lines[0].len();
    forward(lines, at, from) - if inside { 0 } else { across(lines, at) }
}

/// Past the side edge the pixel at the other end.
fn full_circle(lines: &Lines, at: (usize, usize), from: Option<usize>) -> u64 {
    let (line, breadth) = (&lines[at.0], lines[at.0].len());
    let before = &line[(at.1 + breadth - 1) % breadth];
    let after = &line[(at.1 + 1) % breadth];
    let aside = side_of(lines, at, from).map_or(0, |side| apart(&lines[at.0 - 1][at.1], side));
    apart(before, after) + aside
}

/// The pixel itself held against the neighbour, where the one above it should be.
fn itself(lines: &Lines, at: (usize, usize), from: Option<usize>) -> u64 {
    let aside = side_of(lines, at, from).map_or(0, |side| apart(&lines[at.0][at.1], side));
    across(lines, at) + aside
}

/// The pixel that the path comes from held against the neighbour.
fn the_one_before(lines: &Lines, at: (usize, usize), from: Option<usize>) -> u64 {
    let pixel = |side| apart(&lines[at.0 - 1][from.unwrap()], side);
    across(lines, at) + side_of(lines, at, from).map_or(0, pixel)
}

const WRONG_COSTS: [(&str, Cost); 7] = [
    ("left and right exchanged", exchanged),
    ("straight up alone", up_alone),
    ("a line above the first", line_above_the_first),
    ("nothing past the side", nothing_past_the_side),
    ("full circle", full_circle),
    ("the pixel itself", itself),
    ("the one before", the_one_before),
];

/// Of all paths the first of the cheapest.
fn seam_by(cost: Cost, picture: &[u8], size: Size, axis: Axis) -> Vec<u16> {
    let lines = lines(picture, size, axis);
    let (length, breadth) = extent(size, axis);
    let price = |path: &Vec<usize>| path_cost(path, |at, from| cost(&lines, at, from));
    // `min_by_key` gives the first of several, and the paths come in order.
    let seam = paths(length, breadth).into_iter().min_by_key(price);
    from_the_first_line(seam.unwrap())
}

fn from_the_first_line(path: Vec<usize>) -> Vec<u16> {
    path.iter().rev().map(|place| *place as u16).collect()
}

/// The way from line to line chosen by the sums before the step, and the step's
/// cost added to the one chosen.
fn added_after_the_choice(picture: &[u8], size: Size, axis: Axis) -> Vec<u16> {
    let lines = lines(picture, size, axis);
    let breadth = lines[0].len();
    let step = |line, place, from| forward(&lines, (line, place), from);
    // The sum and the path of each place, its last line first.
    let first = |place| (step(0, place, None), vec![place]);
    let mut sums: Vec<(u64, Vec<usize>)> = (0..breadth).map(first).collect();
    for line in 1..lines.len() {
        let next = |place: usize| {
            let near = (0..breadth).filter(|from| from.abs_diff(place) <= 1);
            let from = near.min_by_key(|from| sums[*from].0).unwrap();
            let (sum, path) = &sums[from];
            let path = [&[place], path.as_slice()].concat();
            (sum + step(line, place, Some(from)), path)
        };
        sums = (0..breadth).map(next).collect();
    }
    let (_, path) = sums.into_iter().min_by_key(|(sum, _)| *sum).unwrap();
    from_the_first_line(path)
}

/// A horizontal seam by what its pixels cost a vertical path of the picture that
/// isn't turned: each is come to from straight above, C_U.
fn not_turned(picture: &[u8], size: Size) -> Vec<u16> {
    let rows = lines(picture, size, Axis::Vertical);
    let price =
        |path: &Vec<usize>| path_cost(path, |(line, place), _| across(&rows, (place, line)));
    let seam = paths(size.width, size.height).into_iter().min_by_key(price);
    from_the_first_line(seam.unwrap())
}

/// The way in which wrong seams are made here gives the right ones too.
#[test]
fn right_seams_by_steps() {
    for axis in AXES {
        let right = |picture: &[u8], size| found(picture, size, FORWARD, axis).0;
        let by_steps = |picture: &[u8], size| seam_by(forward, picture, size, axis);
        assert_eq!(differences(95, right, by_steps), 0);
    }
}

#[test]
fn seams_by_wrong_steps() {
    for (name, cost) in WRONG_COSTS {
        for axis in AXES {
            let right = |picture: &[u8], size| found(picture, size, FORWARD, axis).0;
            let wrong = |picture: &[u8], size| seam_by(cost, picture, size, axis);
            let count = differences(95, right, wrong);
            assert!(count > 20, "{name}: {count}");
        }
    }
}

#[test]
fn steps_added_after_the_choice() {
    for axis in AXES {
        let right = |picture: &[u8], size| found(picture, size, FORWARD, axis).0;
        let wrong = |picture: &[u8], size| added_after_the_choice(picture, size, axis);
        let count = differences(96, right, wrong);
        assert!(count > 20, "{count}");
    }
}

#[test]
fn horizontal_steps_of_the_picture_not_turned() {
    let right = |picture: &[u8], size| found(picture, size, FORWARD, Axis::Horizontal).0;
    let count = differences(97, right, not_turned);
    assert!(count > 20, "{count}");
}
