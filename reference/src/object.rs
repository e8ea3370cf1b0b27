//! Object removal.

use crate::energy::Method;
use crate::grid::{bytes_of, close_up, marks_of, pack, pixels_of};
use crate::picture::{judge_marks, judge_picture, judge_work, Size};
use crate::refusal::Refusal;
use crate::seam::vertical_seam;

/// How object removal ended.
#[derive(Clone, Copy, Debug, PartialEq, Eq)]
pub enum Ending {
    /// No pixel is marked 2.
    Done,
    /// The width is 1.
    Narrow,
    /// As many seams as the budget allows are cut.
    Spent,
    /// No seam is allowed.
    Blocked,
}

/// Cuts vertical seams with marks, at most `budget` of them, and gives the
/// ending with the count of seams cut. Refusals 2, 3, 4, 5 and 8.
pub fn remove_object(
    picture: &mut [u8],
    marks: &mut [u8],
    size: Size,
    method: Method,
    budget: u16,
    work: &mut [u8],
) -> Result<(Ending, u16), Refusal> {
    judge_picture(picture, size)?;
    judge_marks(marks, size)?;
    judge_work(work, size)?;
    work.fill(0);

    let mut picture_left = pixels_of(picture, size);
    let mut marks_left = marks_of(marks, size);
    let mut count = 0;
    // Before each cut the endings are tried in the order of the specification.
    let ending = loop {
        if !marks_left.iter().flatten().any(|mark| *mark == 2) {
            break Ending::Done;
        }
        if picture_left[0].len() == 1 {
            break Ending::Narrow;
        }
        if count == budget {
            break Ending::Spent;
        }
        let Some(found) = vertical_seam(&picture_left, &marks_left, method) else {
            break Ending::Blocked;
        };
        picture_left = close_up(&picture_left, &found.columns);
        marks_left = close_up(&marks_left, &found.columns);
        count += 1;
    };
    pack(picture, &bytes_of(&picture_left, size.kind));
    pack(marks, &marks_left.concat());
    Ok((ending, count))
}
