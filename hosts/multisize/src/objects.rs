//! Marked objects removed.

use crate::archive;
use crate::carver::Carver;
use crate::picture::{Picture, Size};
use crate::refusal::Refusal;
use std::fmt;

/// The mark of a pixel that is nothing special.
pub const PLAIN: u8 = 0;
/// The mark of a pixel that no seam may touch.
pub const PROTECTED: u8 = 1;
/// The mark of a pixel that is to be removed.
pub const REMOVE: u8 = 2;

/// How a removal ended, with the count of seams cut. There are these four
/// endings and no others.
#[derive(Clone, Copy, Debug, PartialEq, Eq)]
pub enum Ending {
    /// No pixel is marked to be removed any more.
    Done(u16),
    /// One column is left.
    Narrow(u16),
    /// As many seams were cut as the budget says.
    Spent(u16),
    /// Every seam meets a protected pixel.
    Blocked(u16),
}

impl Ending {
    /// The count of seams cut.
    pub fn count(self) -> u16 {
        match self {
            Ending::Done(count)
            | Ending::Narrow(count)
            | Ending::Spent(count)
            | Ending::Blocked(count) => count,
        }
    }

    /// The ending in one word.
    pub fn word(self) -> &'static str {
        match self {
            Ending::Done(_) => "done",
            Ending::Narrow(_) => "narrow",
            Ending::Spent(_) => "spent",
            Ending::Blocked(_) => "blocked",
        }
    }
}

impl fmt::Display for Ending {
    fn fmt(&self, f: &mut fmt::Formatter) -> fmt::Result {
        let seams = match self.count() {
            1 => "1 seam".to_string(),
            count => format!("{count} seams"),
        };
        write!(f, "{}, {seams} cut", self.word())
    }
}

impl Carver {
    /// Cuts at most `budget` vertical seams by the marks, until no pixel is
    /// marked [`REMOVE`]. Picture and marks are then what is left.
    ///
    /// # Errors
    ///
    /// Refused by 3 for a picture wider than [`LARGEST_SIDE`](crate::LARGEST_SIDE), by 4 unless there is one mark
    /// a pixel, and by 5 for a mark over 2. Picture and marks are then
    /// unchanged. A blocked removal isn't refused: that is an ending.
    ///
    /// ```
    /// use multisize::{Carver, Ending, Picture, Size};
    ///
    /// let mut picture = Picture::new(Size::grey(3, 2), vec![10, 10, 40, 10, 50, 40])?;
    /// let mut marks = vec![0, 2, 1, 0, 0, 0];
    /// let ending = Carver::new().remove(&mut picture, &mut marks, 65535)?;
    /// assert_eq!(ending, Ending::Done(1));
    /// assert_eq!(picture.samples(), [10, 40, 10, 50]);
    /// # Ok::<(), multisize::Refusal>(())
    /// ```
    pub fn remove(
        &mut self,
        picture: &mut Picture,
        marks: &mut Vec<u8>,
        budget: u16,
    ) -> Result<Ending, Refusal> {
        let (size, method) = (picture.size(), self.method());
        let work = self.space_of(size);
        let samples = picture.samples_mut();
        let ending = archive::remove(samples, marks, size, method, budget, work)?;
        picture.keep(Size {
            width: size.width - usize::from(ending.count()),
            ..size
        });
        marks.truncate(picture.size().pixels());
        Ok(ending)
    }
}
