//! Retargeting against the whole table of cells, each seam by trial.

use crate::definitions::*;
use crate::helpers::*;
use crate::random::Random;
use reference::{Axis, Columns, Method, Rows, Size};

type Cell = (Vec<u8>, u64);

/// The cell that a cut along the axis makes.
fn cut_cell(cell: &Cell, size: Size, method: Method, axis: Axis) -> Cell {
    let (lines, cost) = plain_seam(&cell.0, size, method, axis);
    let left = after_cut(&cell.0, size, channels(size.kind), axis, &lines);
    (left, cell.1 + cost)
}

/// The whole table; `ties` counts ties whose pictures differ.
fn table(picture: &[u8], size: Size, method: Method, ties: &mut usize) -> Vec<Vec<Cell>> {
    let mut table: Vec<Vec<Cell>> = Vec::new();
    for r in 0..size.height {
        table.push(Vec::new());
        for c in 0..size.width {
            let from_above = (r > 0).then(|| {
                let before = reference::Size {
                    width: size.width - c,
                    height: size.height - (r - 1),
                    kind: size.kind,
                };
                cut_cell(&table[r - 1][c], before, method, Axis::Horizontal)
            });
            let from_left = (c > 0).then(|| {
                let before = reference::Size {
                    width: size.width - (c - 1),
                    height: size.height - r,
                    kind: size.kind,
                };
                cut_cell(&table[r][c - 1], before, method, Axis::Vertical)
            });
            let cell = match (from_above, from_left) {
                (None, None) => (picture.to_vec(), 0),
                (Some(above), None) => above,
                (None, Some(left)) => left,
                (Some(above), Some(left)) => {
                    *ties += usize::from(above.1 == left.1 && above.0 != left.0);
                    if left.1 <= above.1 {
                        left
                    } else {
                        above
                    }
                }
            };
            table[r].push(cell);
        }
    }
    table
}

pub fn retarget_work(size: Size) -> Vec<u8> {
    let bytes = size.width * size.height;
    vec![OLD_BYTE; 32 * bytes + 66 * bytes * channels(size.kind) + 3]
}

/// What `retarget` gives, held against a cell.
fn judge_cell(picture: &[u8], size: Size, method: Method, counts: (Rows, Columns), cell: &Cell) {
    let (rows, columns) = counts;
    let (expected, total) = cell;
    let mut out = vec![OLD_BYTE; picture.len() + 4];
    let mut work = retarget_work(size);
    let answer = reference::retarget(picture, size, method, rows, columns, &mut out, &mut work);
    assert_eq!(answer, Ok(*total));
    assert!(is_zero(&work));
    let rest = out.split_off(expected.len());
    assert!(rest.iter().all(|byte| *byte == OLD_BYTE));
    assert_eq!(&out, expected);
}

#[test]
fn every_cell_of_small_tables() {
    for method in METHODS {
        let mut random = Random::new(31);
        let mut ties = 0;
        for _ in 0..150 {
            let (picture, size) = random_picture(&mut random, 5, 5);
            let table = table(&picture, size, method, &mut ties);
            for r in 0..size.height {
                for c in 0..size.width {
                    judge_cell(&picture, size, method, (Rows(r), Columns(c)), &table[r][c]);
                }
            }
        }
        // Ties between different pictures occur, so the tie rule is seen.
        assert!(ties > 20);
    }
}

#[test]
fn rows_and_columns_are_not_exchanged() {
    let picture: Vec<u8> = (0..12).map(|i| i * i).collect();
    let mut out = [OLD_BYTE; 12];
    let mut work = retarget_work(grey(4, 3));
    let mut retarget = |rows, columns| {
        let (rows, columns) = (Rows(rows), Columns(columns));
        reference::retarget(
            &picture,
            grey(4, 3),
            EDGE,
            rows,
            columns,
            &mut out,
            &mut work,
        )
    };
    // 4 columns, 3 rows: 3 columns may go, 3 rows may not.
    assert!(retarget(0, 3).is_ok());
    assert_eq!(retarget(3, 0), Err(7));
}

#[test]
fn sixty_four_on_both_sides() {
    let mut random = Random::new(32);
    let picture = random.bytes(70, &[1, 2, 3, 4]);
    for (size, is_row) in [(grey(70, 1), false), (grey(1, 70), true)] {
        for (count, expected) in [(64, Ok(())), (65, Err(7)), (usize::MAX, Err(7))] {
            let (rows, columns) = if is_row {
                (Rows(count), Columns(0))
            } else {
                (Rows(0), Columns(count))
            };
            let mut out = [OLD_BYTE; 70];
            let mut work = retarget_work(size);
            let answer =
                reference::retarget(&picture, size, EDGE, rows, columns, &mut out, &mut work);
            assert_eq!(answer.map(|_| ()), expected);
            if expected.is_err() {
                assert_eq!(out, [OLD_BYTE; 70]);
                assert!(work.iter().all(|byte| *byte == OLD_BYTE));
            }
        }
    }
}

#[test]
fn by_nothing() {
    let mut out = [OLD_BYTE; 8];
    let mut work = retarget_work(grey(3, 2));
    let answer = reference::retarget(
        &EXAMPLE,
        grey(3, 2),
        EDGE,
        Rows(0),
        Columns(0),
        &mut out,
        &mut work,
    );
    assert_eq!(answer, Ok(0));
    assert_eq!(out, [10, 10, 40, 10, 50, 40, OLD_BYTE, OLD_BYTE]);
    assert!(is_zero(&work));
}
