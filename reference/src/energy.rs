//! What a pixel costs, by each rule.

use crate::grid::{pixels_of, Grid, Pixel};
use crate::picture::{judge_picture, Size};
use crate::refusal::{ensure, Refusal, COUNT, SPACE};

/// What a pixel costs.
#[derive(Clone, Copy, Debug, PartialEq, Eq)]
pub enum EnergyRule {
    /// Its energy. A difference that would reach past the edge is taken at the
    /// last column to the left neighbour and at the last row to the upper one; at
    /// width 1 or height 1 it is 0.
    Edge,
    /// Its energy. A difference that would reach past the edge is 0.
    Flat,
    /// The differences that arise where it is taken out, by the step that the
    /// path comes by (forward energy).
    Forward,
}

impl EnergyRule {
    /// All rules.
    pub const ALL: [EnergyRule; 3] = [EnergyRule::Edge, EnergyRule::Flat, EnergyRule::Forward];
}

/// How seams are found.
#[derive(Clone, Copy, Debug, PartialEq, Eq)]
pub struct Method {
    pub energy: EnergyRule,
}

/// What it costs a path to come to a pixel, by where it comes from.
#[derive(Clone, Copy)]
pub struct StepCosts {
    /// From the column to its left in the row above.
    pub left: u32,
    /// From straight above. In the first row, where a path begins, the cost.
    pub up: u32,
    /// From the column to its right in the row above.
    pub right: u32,
}

/// The costs of coming to the pixel of a row and a column.
pub fn costs(picture: &Grid<Pixel>, rule: EnergyRule, row: usize, column: usize) -> StepCosts {
    let beside = |place: usize| place.checked_sub(1);
    let none = |_| None;
    match rule {
        EnergyRule::Edge => alike(energy(picture, beside, row, column)),
        EnergyRule::Flat => alike(energy(picture, none, row, column)),
        EnergyRule::Forward => forward(picture, row, column),
    }
}

/// The same cost from everywhere.
fn alike(cost: u32) -> StepCosts {
    StepCosts {
        left: cost,
        up: cost,
        right: cost,
    }
}

/// |right neighbour − it| + |lower neighbour − it|, the channels added.
/// `past_last` gives the neighbour that the last column and the last row have
/// instead.
fn energy(
    picture: &Grid<Pixel>,
    past_last: impl Fn(usize) -> Option<usize>,
    row: usize,
    column: usize,
) -> u32 {
    let it = picture[row][column];
    let neighbour = |place: usize, count: usize| {
        if place + 1 < count {
            Some(place + 1)
        } else {
            past_last(place)
        }
    };
    let mut sum = 0;
    if let Some(other) = neighbour(column, picture[row].len()) {
        sum += difference(picture[row][other], it);
    }
    if let Some(other) = neighbour(row, picture.len()) {
        sum += difference(picture[other][column], it);
    }
    sum
}

/// C_L, C_U and C_R of the source, i being the row and j the column:
/// C_U = |I(i, j+1) − I(i, j−1)|, C_L = C_U + |I(i−1, j) − I(i, j−1)| and
/// C_R = C_U + |I(i−1, j) − I(i, j+1)|. A neighbour past the side edge is the
/// pixel itself. In the first row all three are C_U.
fn forward(picture: &Grid<Pixel>, row: usize, column: usize) -> StepCosts {
    let pixels = &picture[row];
    let left = pixels[column.saturating_sub(1)];
    let right = pixels[(column + 1).min(pixels.len() - 1)];
    let up = difference(right, left);
    if row == 0 {
        return alike(up);
    }
    let above = picture[row - 1][column];
    StepCosts {
        left: up + difference(above, left),
        up,
        right: up + difference(above, right),
    }
}

/// The absolute differences of two pixels' samples, added.
fn difference(a: Pixel, b: Pixel) -> u32 {
    let mut sum = 0;
    for channel in 0..a.len() {
        sum += u32::from(a[channel].abs_diff(b[channel]));
    }
    sum
}

/// The energies of one row, from the left; by `Forward` what a path that comes
/// from straight above pays. Refusals 2, 3, 4 (also for a row number not below
/// the height) and 8.
pub fn energies(
    picture: &[u8],
    size: Size,
    method: Method,
    row: usize,
    out: &mut [u32],
) -> Result<(), Refusal> {
    judge_picture(picture, size)?;
    ensure(row < size.height, COUNT)?;
    ensure(out.len() >= size.width, SPACE)?;
    let pixels = pixels_of(picture, size);
    for column in 0..size.width {
        out[column] = costs(&pixels, method.energy, row, column).up;
    }
    Ok(())
}

/// The costs of coming to each pixel of one row, from the left: from the column
/// to its left in the row above, from straight above, and from the column to its
/// right. Refusals as of `energies`, 8 where one of the three spaces is too short.
pub fn step_costs(
    picture: &[u8],
    size: Size,
    method: Method,
    row: usize,
    left: &mut [u32],
    up: &mut [u32],
    right: &mut [u32],
) -> Result<(), Refusal> {
    judge_picture(picture, size)?;
    ensure(row < size.height, COUNT)?;
    for space in [&*left, &*up, &*right] {
        ensure(space.len() >= size.width, SPACE)?;
    }
    let pixels = pixels_of(picture, size);
    for column in 0..size.width {
        let costs = costs(&pixels, method.energy, row, column);
        left[column] = costs.left;
        up[column] = costs.up;
        right[column] = costs.right;
    }
    Ok(())
}
