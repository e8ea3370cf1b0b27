//! Why a PNG isn't read.

use crate::picture::LARGEST_SIDE;
use crate::refusal::Refusal;
use std::fmt;

/// Why a PNG isn't read. Further reasons may follow.
///
/// ```
/// use multisize::{png, Refusal};
///
/// let error = png::read(b"P5\n1 1\n255\n.").unwrap_err();
/// assert_eq!(error.to_string(), "it doesn't begin as a PNG does");
/// assert_eq!(error.refusal(), Refusal::Form);
/// ```
#[derive(Clone, Copy, PartialEq, Eq)]
#[non_exhaustive]
pub enum Error {
    /// It doesn't begin as a PNG does.
    Signature,
    /// It ends before its last part.
    Short,
    /// It breaks the form of a PNG: how.
    Damaged(&'static str),
    /// It is PNG of a sort that isn't read yet: which.
    Unread(&'static str),
    /// Its width or height is 0 or over [`LARGEST_SIDE`].
    Sides {
        /// Pixels in a row.
        width: u32,
        /// Rows.
        height: u32,
    },
}

impl Error {
    /// The refusal that it is: 2 or 3 for the sides, 1 for all else.
    pub fn refusal(self) -> Refusal {
        match self {
            Error::Sides { width, height } if width == 0 || height == 0 => Refusal::Empty,
            Error::Sides { .. } => Refusal::Large,
            _ => Refusal::Form,
        }
    }
}

impl fmt::Display for Error {
    fn fmt(&self, f: &mut fmt::Formatter) -> fmt::Result {
        match self {
            Error::Signature => write!(f, "it doesn't begin as a PNG does"),
            Error::Short => write!(f, "the PNG is cut short"),
            Error::Damaged(how) => write!(f, "the PNG is damaged: {how}"),
            Error::Unread(what) => write!(f, "a PNG with {what} isn't read"),
            Error::Sides { width, height } => {
                let sides = "each side must be 1 to";
                write!(
                    f,
                    "the PNG is {width} by {height}, and {sides} {LARGEST_SIDE}"
                )
            }
        }
    }
}

/// The same sentence, since that is what `main` prints of an error.
impl fmt::Debug for Error {
    fn fmt(&self, f: &mut fmt::Formatter) -> fmt::Result {
        fmt::Display::fmt(self, f)
    }
}

impl std::error::Error for Error {}
