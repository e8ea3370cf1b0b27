//! The map: for each original pixel the number of the seam that took it, or
//! 0. How it is built, and how 9, 10 and 11 judge one.

use crate::energy::Method;
use crate::grid::{close_up, no_marks, Grid, Pixel};
use crate::refusal::{ensure, Refusal, BROKEN_SEAM, MAP_ROW, OTHER_SEAM};
use crate::seam::vertical_seam;
use crate::widths::narrower;

/// Columns of the seam found in a picture without marks.
fn found_columns(picture: &Grid<Pixel>, method: Method) -> Vec<usize> {
    vertical_seam(picture, &no_marks(picture), method)
        .expect("without marks there is always a seam")
        .columns
}

/// The map of the first `depth` seams. Each seam is found in the picture that
/// is left; its number is written at the original columns.
pub fn build_map(picture: &Grid<Pixel>, method: Method, depth: usize) -> Grid<u16> {
    let mut map: Grid<u16> = picture.iter().map(|row| vec![0; row.len()]).collect();
    let mut left = picture.clone();
    // For each pixel left, its column in the original picture.
    let mut origins: Grid<usize> = picture.iter().map(|row| (0..row.len()).collect()).collect();
    for number in 1..=depth {
        let columns = found_columns(&left, method);
        for row in 0..map.len() {
            map[row][origins[row][columns[row]]] = number as u16;
        }
        left = close_up(&left, &columns);
        origins = close_up(&origins, &columns);
    }
    map
}

/// Refusals 9, 10 and 11 of a map whose counts are right. 10 of any seam is
/// smaller than 11 of an earlier one, so 10 is judged over all seams first.
pub fn judge_map(
    picture: &Grid<Pixel>,
    map: &Grid<u16>,
    method: Method,
    depth: usize,
) -> Result<(), Refusal> {
    for row in map {
        ensure(holds_each_number_once(row, depth), MAP_ROW)?;
    }
    for number in 1..=depth {
        ensure(is_connected(&recorded_seam(map, number)), BROKEN_SEAM)?;
    }
    for number in 1..=depth {
        // The picture left before seam t is the one at width m − (t − 1).
        let left = narrower(picture, map, number - 1);
        ensure(
            found_columns(&left, method) == recorded_seam(map, number),
            OTHER_SEAM,
        )?;
    }
    Ok(())
}

/// Whether a map row lacks none of 1 to k, repeats none, and holds no more
/// than k.
fn holds_each_number_once(row: &[u16], depth: usize) -> bool {
    let mut times = vec![0; depth + 1];
    for number in row {
        let number = usize::from(*number);
        if number > depth {
            return false;
        }
        times[number] += 1;
    }
    times[1..].iter().all(|times| *times == 1)
}

/// The columns of seam `number` in the picture left before it, whose pixels
/// are those with number 0, this number or a greater one.
fn recorded_seam(map: &Grid<u16>, number: usize) -> Vec<usize> {
    let mut columns = Vec::new();
    for row in map {
        let mut column = 0;
        for entry in row {
            let entry = usize::from(*entry);
            if entry == number {
                break;
            }
            if entry == 0 || entry > number {
                column += 1;
            }
        }
        columns.push(column);
    }
    columns
}

/// Whether neighbouring rows differ by at most 1.
fn is_connected(columns: &[usize]) -> bool {
    columns
        .windows(2)
        .all(|pair| pair[0].abs_diff(pair[1]) <= 1)
}
