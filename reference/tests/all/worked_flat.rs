//! The worked values of the specification by energy `flat`: a difference that
//! would reach past the edge is 0.

use crate::helpers::*;
use crate::retargets::retarget_work;
use reference::{Axis, Columns, FileInfo, Rows};

#[test]
fn example_file() {
    let file = built(&EXAMPLE, grey(3, 2), FLAT, 2, 1).unwrap();
    assert_eq!(file, FLAT_FILE.as_bytes());
    let info = FileInfo {
        size: grey(3, 2),
        method: FLAT,
        depth: 2,
        growth: 1,
    };
    assert_eq!(checked(&file), Ok(info));
    let map = vec![2, 0, 1, 0, 2, 1];
    assert_eq!(read_back(&file), Ok((info, EXAMPLE.to_vec(), map)));
}

/// The energies of a grey picture, row by row.
fn energies(picture: &[u8], width: usize) -> Vec<u32> {
    let size = grey(width, picture.len() / width);
    let mut all = Vec::new();
    for row in 0..size.height {
        let mut out = vec![OLD_ENERGY; width];
        reference::energies(picture, size, FLAT, row, &mut out).unwrap();
        all.extend(out);
    }
    all
}

#[test]
fn example_energies() {
    assert_eq!(energies(&EXAMPLE, 3), [0, 70, 0, 40, 10, 0]);
    // The picture left after the first seam.
    assert_eq!(energies(&[10, 10, 10, 50], 2), [0, 40, 40, 0]);
}

/// Each direction by itself: in the last column the lower difference stays, in
/// the last row the right one, and the corner has none.
#[test]
fn energies_at_the_edges() {
    assert_eq!(energies(&[5, 9, 2], 3), [4, 7, 0]);
    assert_eq!(energies(&[5, 9, 2], 1), [4, 7, 0]);
    // 3 + 8, 2 and 7, 0.
    assert_eq!(energies(&[1, 4, 9, 2], 2), [11, 2, 7, 0]);
    // A step before the last column and one before the last row: only the pixels
    // ahead of it have it.
    let picture = [0, 0, 100, 0, 0, 100, 10, 10, 200];
    let rows = [[0, 100, 0], [10, 100 + 10, 100], [0, 190, 0]];
    assert_eq!(energies(&picture, 3), rows.concat());
}

#[test]
fn rgb_energy_adds_the_channels() {
    let picture = [0, 10, 200, 255, 0, 100, 1, 10, 203, 0, 0, 0];
    let mut out = [0; 2];
    reference::energies(&picture, rgb(2, 2), FLAT, 0, &mut out).unwrap();
    // Right: 255 + 10 + 100. Lower: 1 + 0 + 3, and 255 + 0 + 100.
    assert_eq!(out, [365 + 4, 355]);
    reference::energies(&picture, rgb(2, 2), FLAT, 1, &mut out).unwrap();
    // Right: 1 + 10 + 203.
    assert_eq!(out, [214, 0]);
}

#[test]
fn example_seams() {
    let first = (vec![2, 2], 0);
    assert_eq!(found(&EXAMPLE, grey(3, 2), FLAT, Axis::Vertical), first);
    let (left, seam, cost) = cut_once(&EXAMPLE, grey(3, 2), FLAT, Axis::Vertical).unwrap();
    assert_eq!((seam, cost), first);
    assert_eq!(left, [10, 10, 10, 50, 0, 0]);
    let second = cut_once(&left[..4], grey(2, 2), FLAT, Axis::Vertical).unwrap();
    assert_eq!(second, (vec![10, 10, 0, 0], vec![0, 1], 0));
}

#[test]
fn example_widths() {
    let file = FLAT_FILE.as_bytes();
    assert_eq!(shown(file, 3).unwrap(), (grey(3, 2), EXAMPLE.to_vec()));
    assert_eq!(shown(file, 2).unwrap(), (grey(2, 2), vec![10, 10, 10, 50]));
    assert_eq!(shown(file, 1).unwrap(), (grey(1, 2), vec![10, 10]));
    let four = vec![10, 10, 25, 40, 10, 50, 45, 40];
    assert_eq!(shown(file, 4).unwrap(), (grey(4, 2), four));
    assert_eq!(shown(file, 0), Err(7));
    assert_eq!(shown(file, 5), Err(7));
}

/// Energies 0 70 0 / 40 10 0: rows 0, 1 and then either at cost 10; read from the
/// last column leftward 0 1 0 comes first.
#[test]
fn horizontal_seam_of_the_example() {
    let (left, rows, cost) = cut_once(&EXAMPLE, grey(3, 2), FLAT, Axis::Horizontal).unwrap();
    assert_eq!((rows, cost), (vec![0, 1, 0], 10));
    assert_eq!(left, [10, 10, 40, 0, 0, 0]);
}

#[test]
fn marks_change_no_energy() {
    let marks = [0, 2, 0, 0, 2, 0];
    let found = found_marked(&EXAMPLE, &marks, grey(3, 2), FLAT, Axis::Vertical);
    assert_eq!(found, Ok((vec![1, 1], 70 + 10)));
}

/// One row and one column less. Columns first: 0, then rows 0, 1 of 10 10 /
/// 10 50 at cost 0, together 0. Rows first: 10 already.
#[test]
fn retarget_of_the_example() {
    let mut out = [OLD_BYTE; 3];
    let mut work = retarget_work(grey(3, 2));
    let (size, rows, columns) = (grey(3, 2), Rows(1), Columns(1));
    let total = reference::retarget(&EXAMPLE, size, FLAT, rows, columns, &mut out, &mut work);
    assert_eq!(total, Ok(0));
    assert_eq!(out, [10, 10, OLD_BYTE]);
}

/// The last column goes first, then the one before it: p(m−2), new(m−2),
/// new(m−1), p(m−1). Energies 30 20 1 0, then 30 20 0, then 30 0.
#[test]
fn end_of_a_grown_row() {
    let file = built(&[0, 30, 50, 51], grey(4, 1), FLAT, 3, 2).unwrap();
    assert_eq!(read_back(&file).unwrap().2, [0, 3, 2, 1]);
    assert_eq!(shown(&file, 5).unwrap().1, [0, 30, 50, 50, 51]);
    assert_eq!(shown(&file, 6).unwrap().1, [0, 30, 50, 50, 50, 51]);
}

/// In one row the last column has energy 0.
#[test]
fn rgb_last_column() {
    let picture = [1, 2, 3, 4, 5, 6];
    let seam = found(&picture, rgb(2, 1), FLAT, Axis::Vertical);
    assert_eq!(seam, (vec![1], 0));
    let file = built(&picture, rgb(2, 1), FLAT, 1, 1).unwrap();
    assert_eq!(read_back(&file).unwrap().2, [0, 1]);
    // The new pixel stands left of column 1.
    assert_eq!(shown(&file, 3).unwrap().1, [1, 2, 3, 2, 3, 4, 4, 5, 6]);
}
