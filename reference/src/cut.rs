//! Cutting one seam.

use crate::energy::Method;
use crate::grid::{bytes_of, close_up, marks_of, pack, pixels_of};
use crate::picture::{judge_picture, pixel_count, Size};
use crate::refusal::{ensure, Refusal, ALL_PROTECTED, LAST_LINE};
use crate::seam::{give_seam, judge_seam_request, turn, vertical_seam, Axis};

/// Cuts the seam of a picture without marks: refusals 2, 3, 4, 8 and 13.
pub fn cut(
    picture: &mut [u8],
    size: Size,
    method: Method,
    axis: Axis,
    seam: &mut [u16],
    work: &mut [u8],
) -> Result<u64, Refusal> {
    judge_picture(picture, size)?;
    let mut marks = vec![0; pixel_count(size)];
    cut_marked(picture, &mut marks, size, method, axis, seam, work)
}

/// Cuts the seam of a picture with marks, and the marks alike: refusals 2, 3,
/// 4, 5, 8, 12 and 13.
pub fn cut_marked(
    picture: &mut [u8],
    marks: &mut [u8],
    size: Size,
    method: Method,
    axis: Axis,
    seam: &mut [u16],
    work: &mut [u8],
) -> Result<u64, Refusal> {
    judge_seam_request(picture, marks, size, axis, seam, work)?;
    work.fill(0);
    let turned_picture = turn(pixels_of(picture, size), axis);
    let turned_marks = turn(marks_of(marks, size), axis);
    let found = vertical_seam(&turned_picture, &turned_marks, method).ok_or(ALL_PROTECTED)?;
    ensure(turned_picture[0].len() > 1, LAST_LINE)?;

    let picture_left = turn(close_up(&turned_picture, &found.columns), axis);
    let marks_left = turn(close_up(&turned_marks, &found.columns), axis);
    pack(picture, &bytes_of(&picture_left, size.kind));
    pack(marks, &marks_left.concat());
    give_seam(&found, seam);
    Ok(found.cost)
}
