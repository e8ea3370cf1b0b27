//! Kinds and sizes, the rows of a lent picture, and the refusals 2 to 5 and 8
//! that concern pictures, marks and work space.

use crate::refusal::{ensure, Refusal, COUNT, MARK, SIDE_TOO_LARGE, SIDE_ZERO, SPACE};

/// The largest width and height of a picture.
pub const LARGEST_SIDE: usize = 512;

/// Bytes of work space for each pixel.
const WORK_BYTES_A_PIXEL: usize = 32;

/// The kind of a picture.
#[derive(Clone, Copy, Debug, PartialEq, Eq)]
pub enum Kind {
    /// One byte a pixel.
    Grey,
    /// Three bytes a pixel, red first.
    Rgb,
}

impl Kind {
    /// Number of samples of a pixel.
    pub fn channels(self) -> usize {
        match self {
            Kind::Grey => 1,
            Kind::Rgb => 3,
        }
    }
}

/// Width, height and kind of a picture.
#[derive(Clone, Copy, Debug, PartialEq, Eq)]
pub struct Size {
    pub width: usize,
    pub height: usize,
    pub kind: Kind,
}

/// Refusals 2 and 3. Only after these may sides be multiplied.
pub fn judge_sides(size: Size) -> Result<(), Refusal> {
    ensure(size.width != 0 && size.height != 0, SIDE_ZERO)?;
    ensure(
        size.width <= LARGEST_SIDE && size.height <= LARGEST_SIDE,
        SIDE_TOO_LARGE,
    )
}

/// Number of pixels of an admitted size.
pub fn pixel_count(size: Size) -> usize {
    size.width * size.height
}

/// Number of bytes of a picture of an admitted size.
pub fn byte_count(size: Size) -> usize {
    pixel_count(size) * size.kind.channels()
}

/// Refusals 2, 3 and 4 of a lent picture.
pub fn judge_picture(picture: &[u8], size: Size) -> Result<(), Refusal> {
    judge_sides(size)?;
    ensure(picture.len() == byte_count(size), COUNT)
}

/// Refusals 4 and 5 of a mark buffer, for an admitted size.
pub fn judge_marks(marks: &[u8], size: Size) -> Result<(), Refusal> {
    ensure(marks.len() == pixel_count(size), COUNT)?;
    ensure(marks.iter().all(|mark| *mark <= 2), MARK)
}

/// Work space that an operation on a picture of an admitted size needs.
pub fn work_needed(size: Size) -> usize {
    WORK_BYTES_A_PIXEL * pixel_count(size)
}

/// Refusal 8 for work space.
pub fn judge_work(work: &[u8], size: Size) -> Result<(), Refusal> {
    ensure(work.len() >= work_needed(size), SPACE)
}

/// Row `row` as that part of the lent picture itself. A row number not below
/// the height, or a size or length that 2 to 4 refuse, gives the empty part.
pub fn row(picture: &[u8], size: Size, row: usize) -> &[u8] {
    if judge_picture(picture, size).is_err() || row >= size.height {
        return &picture[..0];
    }
    let length = size.width * size.kind.channels();
    &picture[row * length..(row + 1) * length]
}
