//! The operations on a picture.

use super::numbers::{axis_number, host_method, host_size};
use super::{declared, judged, served};
use crate::method::Method;
use crate::objects::Ending;
use crate::picture::Size;
use crate::refusal::Refusal;
use crate::retargets::{Columns, Rows};
use crate::seams::Axis;

/// The seam at the front of `seam`; gives its cost.
pub fn find(
    picture: &[u8],
    size: Size,
    method: Method,
    axis: Axis,
    seam: &mut [u16],
    work: &mut [u8],
) -> Result<u64, Refusal> {
    // SAFETY: each pointer comes with the length of its slice, which stays lent
    // until the call ends.
    served(unsafe {
        declared::multisize_find(
            picture.as_ptr(),
            picture.len(),
            host_size(size),
            host_method(method),
            axis_number(axis),
            seam.as_mut_ptr(),
            seam.len(),
            work.as_mut_ptr(),
            work.len(),
        )
    })
}

/// As `find`, and the picture left at the front of `picture`.
pub fn cut(
    picture: &mut [u8],
    size: Size,
    method: Method,
    axis: Axis,
    seam: &mut [u16],
    work: &mut [u8],
) -> Result<u64, Refusal> {
    // SAFETY: as in `find`; the picture is lent to be changed.
    served(unsafe {
        declared::multisize_cut(
            picture.as_mut_ptr(),
            picture.len(),
            host_size(size),
            host_method(method),
            axis_number(axis),
            seam.as_mut_ptr(),
            seam.len(),
            work.as_mut_ptr(),
            work.len(),
        )
    })
}

/// The seam by the marks at the front of `seam`; gives its cost.
pub fn find_marked(
    picture: &[u8],
    marks: &[u8],
    size: Size,
    method: Method,
    axis: Axis,
    seam: &mut [u16],
    work: &mut [u8],
) -> Result<u64, Refusal> {
    // SAFETY: each pointer comes with the length of its slice, which stays lent
    // until the call ends.
    served(unsafe {
        declared::multisize_find_marked(
            picture.as_ptr(),
            picture.len(),
            marks.as_ptr(),
            marks.len(),
            host_size(size),
            host_method(method),
            axis_number(axis),
            seam.as_mut_ptr(),
            seam.len(),
            work.as_mut_ptr(),
            work.len(),
        )
    })
}

/// As `find_marked`, and what is left at the front of `picture` and `marks`.
pub fn cut_marked(
    picture: &mut [u8],
    marks: &mut [u8],
    size: Size,
    method: Method,
    axis: Axis,
    seam: &mut [u16],
    work: &mut [u8],
) -> Result<u64, Refusal> {
    // SAFETY: as in `find_marked`; picture and marks are lent to be changed.
    served(unsafe {
        declared::multisize_cut_marked(
            picture.as_mut_ptr(),
            picture.len(),
            marks.as_mut_ptr(),
            marks.len(),
            host_size(size),
            host_method(method),
            axis_number(axis),
            seam.as_mut_ptr(),
            seam.len(),
            work.as_mut_ptr(),
            work.len(),
        )
    })
}

/// At most `budget` vertical seams cut by the marks; what is left stands at the
/// front of `picture` and `marks`.
pub fn remove(
    picture: &mut [u8],
    marks: &mut [u8],
    size: Size,
    method: Method,
    budget: u16,
    work: &mut [u8],
) -> Result<Ending, Refusal> {
    // SAFETY: each pointer comes with the length of its slice, which stays lent
    // to be changed until the call ends.
    let ended = unsafe {
        declared::multisize_remove(
            picture.as_mut_ptr(),
            picture.len(),
            marks.as_mut_ptr(),
            marks.len(),
            host_size(size),
            host_method(method),
            budget,
            work.as_mut_ptr(),
            work.len(),
        )
    };
    judged(ended.number)?;
    let count = u16::try_from(ended.count).expect("the count is at most the budget");
    Ok(match ended.ending {
        1 => Ending::Done(count),
        2 => Ending::Narrow(count),
        3 => Ending::Spent(count),
        4 => Ending::Blocked(count),
        other => unreachable!("the archive has no ending {other}"),
    })
}

/// The picture with `rows` rows and `columns` columns less at the front of
/// `out`; gives the total.
pub fn retarget(
    picture: &[u8],
    size: Size,
    method: Method,
    rows: Rows,
    columns: Columns,
    out: &mut [u8],
    work: &mut [u8],
) -> Result<u64, Refusal> {
    // SAFETY: each pointer comes with the length of its slice, which stays lent
    // until the call ends.
    served(unsafe {
        declared::multisize_retarget(
            picture.as_ptr(),
            picture.len(),
            host_size(size),
            host_method(method),
            rows.0,
            columns.0,
            out.as_mut_ptr(),
            out.len(),
            work.as_mut_ptr(),
            work.len(),
        )
    })
}
