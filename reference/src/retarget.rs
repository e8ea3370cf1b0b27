//! Retargeting in both directions.

use crate::energy::Method;
use crate::grid::{bytes_of, close_up, give_out, no_marks, pixels_of, Grid, Pixel};
use crate::picture::{byte_count, judge_picture, work_needed, Size};
use crate::refusal::{ensure, Refusal, NOT_OFFERED, SPACE};
use crate::seam::{turn, vertical_seam, Axis};

/// The most rows and the most columns that a retarget removes.
const LARGEST_COUNT: usize = 64;

/// Copies of the picture that the work space of a retarget holds besides.
const PICTURE_COPIES: usize = 66;

/// A count of rows.
#[derive(Clone, Copy, Debug, PartialEq, Eq)]
pub struct Rows(pub usize);

/// A count of columns.
#[derive(Clone, Copy, Debug, PartialEq, Eq)]
pub struct Columns(pub usize);

/// A cell of the table: the one picture kept for it, and its total.
struct Cell {
    picture: Grid<Pixel>,
    total: u64,
}

/// The cell that a cut along the axis makes of `cell`. The total grows by the
/// seam's cost in the picture before the cut.
fn cut_from(cell: &Cell, method: Method, axis: Axis) -> Cell {
    let turned = turn(cell.picture.clone(), axis);
    let seam = vertical_seam(&turned, &no_marks(&turned), method)
        .expect("without marks there is always a seam");
    Cell {
        picture: turn(close_up(&turned, &seam.columns), axis),
        total: cell.total + seam.cost,
    }
}

/// The cells (0,0) to (0,c): each comes from the one before by its vertical
/// seam.
fn first_row(picture: Grid<Pixel>, method: Method, columns: Columns) -> Vec<Cell> {
    let mut cells = vec![Cell { picture, total: 0 }];
    for c in 1..=columns.0 {
        cells.push(cut_from(&cells[c - 1], method, Axis::Vertical));
    }
    cells
}

/// The cells (r,0) to (r,c), given the cells (r−1,0) to (r−1,c).
fn next_row(above: &[Cell], method: Method) -> Vec<Cell> {
    let mut cells = vec![cut_from(&above[0], method, Axis::Horizontal)];
    for c in 1..above.len() {
        let by_row = cut_from(&above[c], method, Axis::Horizontal);
        let by_column = cut_from(&cells[c - 1], method, Axis::Vertical);
        // The smaller total; on a tie the vertical cut.
        if by_row.total < by_column.total {
            cells.push(by_row);
        } else {
            cells.push(by_column);
        }
    }
    cells
}

/// The cell (r,c) of the table that begins with the picture. A cell looks at
/// its own table row and the one above alone, so only these two are kept.
fn cell(picture: Grid<Pixel>, method: Method, rows: Rows, columns: Columns) -> Cell {
    let mut cells = first_row(picture, method, columns);
    for _ in 0..rows.0 {
        cells = next_row(&cells, method);
    }
    cells.remove(columns.0)
}

/// Whether the counts are each at most 64 and leave a row and a column.
fn is_offered(size: Size, rows: Rows, columns: Columns) -> bool {
    rows.0 <= LARGEST_COUNT
        && columns.0 <= LARGEST_COUNT
        && rows.0 < size.height
        && columns.0 < size.width
}

/// Removes rows and columns and gives the total; the picture goes to `out`.
/// Refusals 2, 3, 4, 7 and 8.
pub fn retarget(
    picture: &[u8],
    size: Size,
    method: Method,
    rows: Rows,
    columns: Columns,
    out: &mut [u8],
    work: &mut [u8],
) -> Result<u64, Refusal> {
    judge_picture(picture, size)?;
    ensure(is_offered(size, rows, columns), NOT_OFFERED)?;
    let size_left = Size {
        width: size.width - columns.0,
        height: size.height - rows.0,
        kind: size.kind,
    };
    ensure(out.len() >= byte_count(size_left), SPACE)?;
    let needed = work_needed(size) + PICTURE_COPIES * byte_count(size);
    ensure(work.len() >= needed, SPACE)?;
    work.fill(0);

    let answer = cell(pixels_of(picture, size), method, rows, columns);
    give_out(out, &bytes_of(&answer.picture, size.kind));
    Ok(answer.total)
}
