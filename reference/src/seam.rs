//! The seam found in a picture, by dynamic programming.

use crate::energy::{costs, Method, StepCosts};
use crate::grid::{exchange, give_out, marks_of, pixels_of, Grid, Pixel};
use crate::picture::{judge_marks, judge_picture, judge_work, pixel_count, Size};
use crate::refusal::{ensure, Refusal, ALL_PROTECTED, SPACE};

/// The direction of a seam.
#[derive(Clone, Copy, Debug, PartialEq, Eq)]
pub enum Axis {
    /// One column for each row.
    Vertical,
    /// One row for each column.
    Horizontal,
}

/// A vertical seam: its columns from the top row, and the sum of what its pixels
/// cost.
pub struct Seam {
    pub columns: Vec<usize>,
    pub cost: u64,
}

/// What a path has met: pixels marked 2, and the sum of costs.
#[derive(Clone, Copy)]
struct Tally {
    marked: u64,
    cost: u64,
}

impl Tally {
    /// First the most pixels marked 2, then the least cost.
    fn is_better_than(self, other: Tally) -> bool {
        self.marked > other.marked || (self.marked == other.marked && self.cost < other.cost)
    }
}

/// The vertical seam of a picture with marks, or none when every vertical
/// seam meets a protected pixel.
///
/// The table holds for each pixel the best tally of the paths that come from
/// the top row and end there. From the bottom row upward the leftmost column
/// that still gives the best tally is taken, so among equals the columns,
/// read from the bottom row upward, come first in dictionary order.
pub fn vertical_seam(picture: &Grid<Pixel>, marks: &Grid<u8>, method: Method) -> Option<Seam> {
    let table = best_tallies(picture, marks, method);
    let bottom = picture.len() - 1;
    let ends = table[bottom].iter().enumerate();
    let (mut column, tally) = leftmost_best(ends.filter_map(|(end, it)| Some((end, (*it)?))))?;
    let mut columns = vec![column];
    for row in (1..=bottom).rev() {
        let costs = costs(picture, method.energy, row, column);
        let (above, _) = leftmost_best(with_step(&table[row - 1], costs, column))
            .expect("a pixel that a path reaches is reached from the row above");
        column = above;
        columns.push(column);
    }
    columns.reverse();
    Some(Seam {
        columns,
        cost: tally.cost,
    })
}

/// For each pixel the best tally of the paths from the top row that end
/// there, or none when each of them meets a protected pixel.
fn best_tallies(picture: &Grid<Pixel>, marks: &Grid<u8>, method: Method) -> Grid<Option<Tally>> {
    let mut table: Grid<Option<Tally>> = Vec::new();
    for row in 0..picture.len() {
        let mut tallies = Vec::new();
        for column in 0..picture[row].len() {
            let costs = costs(picture, method.energy, row, column);
            let best = if row == 0 {
                let cost = u64::from(costs.up);
                Some(Tally { marked: 0, cost })
            } else {
                leftmost_best(with_step(&table[row - 1], costs, column)).map(|(_, best)| best)
            };
            tallies.push(best.and_then(|tally| meet(tally, marks[row][column])));
        }
        table.push(tallies);
    }
    table
}

/// The tally of a path after it meets a mark, or none for a protected pixel.
fn meet(tally: Tally, mark: u8) -> Option<Tally> {
    let marked = match mark {
        0 => tally.marked,
        1 => return None,
        _ => tally.marked + 1,
    };
    Some(Tally { marked, ..tally })
}

/// The columns of the row above that a path comes to `column` from, in order, each
/// with its tally after that step. Neighbouring rows differ by at most 1.
fn with_step(
    above: &[Option<Tally>],
    costs: StepCosts,
    column: usize,
) -> impl Iterator<Item = (usize, Tally)> + '_ {
    let ways = [
        (column.checked_sub(1), costs.left),
        (Some(column), costs.up),
        (Some(column + 1), costs.right),
    ];
    ways.into_iter().filter_map(|(from, step)| {
        let tally = (*above.get(from?)?)?;
        let cost = tally.cost + u64::from(step);
        Some((from?, Tally { cost, ..tally }))
    })
}

/// The first of the best tallies, with its column, or none of no tally.
fn leftmost_best(tallies: impl Iterator<Item = (usize, Tally)>) -> Option<(usize, Tally)> {
    let mut best: Option<(usize, Tally)> = None;
    for (column, tally) in tallies {
        if best.is_none_or(|(_, so_far)| tally.is_better_than(so_far)) {
            best = Some((column, tally));
        }
    }
    best
}

/// The grid in which a seam along the axis is a vertical one. Turning twice
/// gives the grid back.
pub fn turn<T: Copy>(grid: Grid<T>, axis: Axis) -> Grid<T> {
    match axis {
        Axis::Vertical => grid,
        Axis::Horizontal => exchange(&grid),
    }
}

/// Number of entries of a seam: one a row, or one a column.
fn seam_length(size: Size, axis: Axis) -> usize {
    match axis {
        Axis::Vertical => size.height,
        Axis::Horizontal => size.width,
    }
}

/// Refusals 2 to 5 and 8 of finding and of cutting one seam.
pub fn judge_seam_request(
    picture: &[u8],
    marks: &[u8],
    size: Size,
    axis: Axis,
    seam: &[u16],
    work: &[u8],
) -> Result<(), Refusal> {
    judge_picture(picture, size)?;
    judge_marks(marks, size)?;
    ensure(seam.len() >= seam_length(size, axis), SPACE)?;
    judge_work(work, size)
}

/// Puts the seam's columns (or rows) into the lent space. A column is below
/// the largest side and so fits in 16 bits.
pub fn give_seam(found: &Seam, seam: &mut [u16]) {
    let columns: Vec<u16> = found.columns.iter().map(|column| *column as u16).collect();
    give_out(seam, &columns);
}

/// Finds the seam of a picture without marks: refusals 2, 3, 4 and 8.
pub fn find(
    picture: &[u8],
    size: Size,
    method: Method,
    axis: Axis,
    seam: &mut [u16],
    work: &mut [u8],
) -> Result<u64, Refusal> {
    judge_picture(picture, size)?;
    let marks = vec![0; pixel_count(size)];
    find_marked(picture, &marks, size, method, axis, seam, work)
}

/// Finds the seam of a picture with marks: refusals 2, 3, 4, 5, 8 and 12.
pub fn find_marked(
    picture: &[u8],
    marks: &[u8],
    size: Size,
    method: Method,
    axis: Axis,
    seam: &mut [u16],
    work: &mut [u8],
) -> Result<u64, Refusal> {
    judge_seam_request(picture, marks, size, axis, seam, work)?;
    work.fill(0);
    let turned_picture = turn(pixels_of(picture, size), axis);
    let turned_marks = turn(marks_of(marks, size), axis);
    let found = vertical_seam(&turned_picture, &turned_marks, method).ok_or(ALL_PROTECTED)?;
    give_seam(&found, seam);
    Ok(found.cost)
}
