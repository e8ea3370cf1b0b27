//! The worked values by energy `forward`: a seam is the path whose taking out adds
//! least.

use crate::helpers::*;
use crate::retargets::retarget_work;
use reference::{Axis, Columns, FileInfo, Rows};

#[test]
fn example_file() {
    let file = built(&EXAMPLE, grey(3, 2), FORWARD, 2, 1).unwrap();
    assert_eq!(file, FORWARD_FILE.as_bytes());
    let info = FileInfo {
        size: grey(3, 2),
        method: FORWARD,
        depth: 2,
        growth: 1,
    };
    assert_eq!(checked(&file), Ok(info));
    let map = vec![1, 2, 0, 2, 1, 0];
    assert_eq!(read_back(&file), Ok((info, EXAMPLE.to_vec(), map)));
}

/// The costs from the left, from above and from the right, row by row.
fn step_costs(picture: &[u8], width: usize, row: usize) -> [Vec<u32>; 3] {
    let size = grey(width, picture.len() / width);
    step_costs_of(picture, size, FORWARD, row)
}

/// In row 0 all three are C_U: |10 − 10|, |40 − 10|, |40 − 10|. In row 1 C_U is 40
/// 30 10, and the pixel above is held against the neighbour on the side that a
/// path comes from. Left of column 0 and right of column 2 this is the pixel
/// itself.
#[test]
fn example_step_costs() {
    let [left, up, right] = step_costs(&EXAMPLE, 3, 0);
    assert_eq!(left, [0, 30, 30]);
    assert_eq!(up, [0, 30, 30]);
    assert_eq!(right, [0, 30, 30]);
    let [left, up, right] = step_costs(&EXAMPLE, 3, 1);
    assert_eq!(left, [40, 30, 10 + 10]);
    assert_eq!(up, [40, 30, 10]);
    assert_eq!(right, [40 + 40, 30 + 30, 10]);
}

/// By the other rules all three are the pixel's energy.
#[test]
fn step_costs_by_the_other_rules() {
    for (method, row) in [(EDGE, [40, 50, 10]), (FLAT, [40, 10, 0])] {
        let spaces = step_costs_of(&EXAMPLE, grey(3, 2), method, 1);
        assert_eq!(spaces, [row; 3].map(Vec::from));
    }
}

#[test]
fn energies_are_the_costs_from_above() {
    for row in 0..2 {
        let mut out = [OLD_ENERGY; 4];
        reference::energies(&EXAMPLE, grey(3, 2), FORWARD, row, &mut out).unwrap();
        assert_eq!(out[..3], step_costs(&EXAMPLE, 3, row)[1]);
        assert_eq!(out[3], OLD_ENERGY);
    }
}

/// At width 1 both neighbours are the pixel itself: C_U is 0, and C_L and C_R are
/// what it differs by from the pixel above.
#[test]
fn one_column() {
    let picture = [5, 9, 2];
    for (row, beside) in [(0, 0), (1, 4), (2, 7)] {
        let spaces = step_costs(&picture, 1, row);
        assert_eq!(spaces, [vec![beside], vec![0], vec![beside]]);
    }
    let seam = (vec![0, 0, 0], 0);
    assert_eq!(found(&picture, grey(1, 3), FORWARD, Axis::Vertical), seam);
}

/// Each difference has its own value in each channel.
#[test]
fn rgb_step_costs_add_the_channels() {
    let picture = [0, 0, 0, 100, 50, 20, 9, 9, 9, 1, 2, 3, 7, 7, 7, 11, 22, 33];
    let [left, up, right] = step_costs_of(&picture, rgb(3, 2), FORWARD, 1);
    // Column 1: across 10 + 20 + 30; 100 50 20 to 1 2 3 and to 11 22 33.
    assert_eq!(up[1], 60);
    assert_eq!(left[1], 60 + 99 + 48 + 17);
    assert_eq!(right[1], 60 + 89 + 28 + 13);
    // Column 0: across 6 + 5 + 4; 0 0 0 to 1 2 3 and to 7 7 7.
    assert_eq!([left[0], up[0], right[0]], [15 + 6, 15, 15 + 21]);
    // Column 2: across 4 + 15 + 26; 9 9 9 to 7 7 7 and to 11 22 33.
    assert_eq!([left[2], up[2], right[2]], [45 + 6, 45, 45 + 2 + 13 + 24]);
}

/// Columns 0, 1 cost 0 + 30. In the picture left, 10 40 / 10 40, each pixel costs
/// 30 from straight above, and a step aside 30 more.
#[test]
fn example_seams() {
    let first = (vec![0, 1], 30);
    assert_eq!(found(&EXAMPLE, grey(3, 2), FORWARD, Axis::Vertical), first);
    let (left, seam, cost) = cut_once(&EXAMPLE, grey(3, 2), FORWARD, Axis::Vertical).unwrap();
    assert_eq!((seam, cost), first);
    assert_eq!(left, [10, 40, 10, 40, 0, 0]);
    assert_eq!(step_costs(&left[..4], 2, 1)[2][0], 30 + 30);
    let second = cut_once(&left[..4], grey(2, 2), FORWARD, Axis::Vertical).unwrap();
    assert_eq!(second, (vec![40, 40, 0, 0], vec![0, 0], 60));
}

#[test]
fn example_widths() {
    let file = FORWARD_FILE.as_bytes();
    assert_eq!(shown(file, 3).unwrap(), (grey(3, 2), EXAMPLE.to_vec()));
    assert_eq!(shown(file, 2).unwrap(), (grey(2, 2), vec![10, 40, 10, 40]));
    assert_eq!(shown(file, 1).unwrap(), (grey(1, 2), vec![40, 40]));
    let four = vec![10, 10, 10, 40, 10, 50, 45, 40];
    assert_eq!(shown(file, 4).unwrap(), (grey(4, 2), four));
    assert_eq!(shown(file, 0), Err(7));
    assert_eq!(shown(file, 5), Err(7));
}

/// Turned, 10 10 / 10 50 / 40 40: costs 0 0, then 40 40, then 0 0 and aside 30 and
/// 10. Rows 0, 0, 0 and 0, 0, 1 .. cost 40 or more, and 0, 0, 0 comes first.
#[test]
fn horizontal_seam_of_the_example() {
    let (left, rows, cost) = cut_once(&EXAMPLE, grey(3, 2), FORWARD, Axis::Horizontal).unwrap();
    assert_eq!((rows, cost), (vec![0, 0, 0], 40));
    assert_eq!(left, [10, 50, 40, 0, 0, 0]);
}

/// Row 0 without column 0, and the pixel marked 2: columns 2, 2 cost 30 + 10,
/// columns 1, 2 cost 30 + 20.
#[test]
fn example_with_marks() {
    let marks = [1, 0, 0, 0, 0, 2];
    let found = found_marked(&EXAMPLE, &marks, grey(3, 2), FORWARD, Axis::Vertical);
    assert_eq!(found, Ok((vec![2, 2], 40)));
}

#[test]
fn marks_change_no_cost() {
    let marks = [0, 2, 0, 0, 2, 0];
    let found = found_marked(&EXAMPLE, &marks, grey(3, 2), FORWARD, Axis::Vertical);
    assert_eq!(found, Ok((vec![1, 1], 30 + 30)));
}

/// One row and one column less. Columns first: 30, then either row of 10 40 /
/// 10 40 at cost 0, together 30. Rows first: 40, then column 2 of 10 50 40, whose
/// costs are 40 30 10, together 50.
#[test]
fn retarget_of_the_example() {
    let mut out = [OLD_BYTE; 3];
    let mut work = retarget_work(grey(3, 2));
    let (size, rows, columns) = (grey(3, 2), Rows(1), Columns(1));
    let total = reference::retarget(&EXAMPLE, size, FORWARD, rows, columns, &mut out, &mut work);
    assert_eq!(total, Ok(30));
    assert_eq!(out, [10, 40, OLD_BYTE]);
}

/// Of equals the path that is leftmost read from the bottom row upward. All pixels
/// cost 0 from straight above and nothing more from the side.
#[test]
fn equal_samples() {
    let seam = found(&[7; 12], grey(4, 3), FORWARD, Axis::Vertical);
    assert_eq!(seam, (vec![0, 0, 0], 0));
    let seam = found(&[7; 12], grey(4, 3), FORWARD, Axis::Horizontal);
    assert_eq!(seam, (vec![0, 0, 0, 0], 0));
}

/// 100 up to a diagonal, 0 to the right of it. A pixel beside the diagonal costs
/// 100, so the seam keeps to its right, where all paths cost 0. Read from the bottom
/// row upward the leftmost is 4, 3, 2.
#[test]
fn beside_a_diagonal() {
    let picture = [
        100, 0, 0, 0, 0, //
        100, 100, 0, 0, 0, //
        100, 100, 100, 0, 0, //
    ];
    let (seam, cost) = found(&picture, grey(5, 3), FORWARD, Axis::Vertical);
    assert_eq!((seam, cost), (vec![2, 3, 4], 0));
}
