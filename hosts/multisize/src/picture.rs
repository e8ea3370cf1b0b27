//! Pictures: a size, a kind, and samples.

use crate::archive;
use crate::carver::Carver;
use crate::method::Method;
use crate::refusal::Refusal;

/// The largest width and the largest height of a picture.
pub const LARGEST_SIDE: usize = 512;

/// One byte a pixel, or three with red first. Further kinds may follow.
#[derive(Clone, Copy, Debug, PartialEq, Eq, Hash)]
#[non_exhaustive]
pub enum Kind {
    /// 1 byte a pixel.
    Grey,
    /// 3 bytes a pixel.
    Rgb,
}

impl Kind {
    /// How many samples a pixel has.
    pub fn channels(self) -> usize {
        match self {
            Kind::Grey => 1,
            Kind::Rgb => 3,
        }
    }

    /// The word that names it in a file.
    ///
    /// ```
    /// assert_eq!(multisize::Kind::Rgb.word(), "rgb");
    /// ```
    pub fn word(self) -> &'static str {
        match self {
            Kind::Grey => "grey",
            Kind::Rgb => "rgb",
        }
    }
}

/// Width, height and kind of a picture.
#[derive(Clone, Copy, Debug, PartialEq, Eq, Hash)]
pub struct Size {
    /// Pixels in a row.
    pub width: usize,
    /// Rows.
    pub height: usize,
    /// Grey or rgb.
    pub kind: Kind,
}

impl Size {
    /// The size of a grey picture.
    pub const fn grey(width: usize, height: usize) -> Size {
        let kind = Kind::Grey;
        Size {
            width,
            height,
            kind,
        }
    }

    /// The size of an rgb picture.
    pub const fn rgb(width: usize, height: usize) -> Size {
        let kind = Kind::Rgb;
        Size {
            width,
            height,
            kind,
        }
    }

    // These are asked only of sizes that a picture has, so nothing overflows.
    pub(crate) const fn pixels(self) -> usize {
        self.width * self.height
    }

    pub(crate) fn row_bytes(self) -> usize {
        self.width * self.kind.channels()
    }

    pub(crate) fn bytes(self) -> usize {
        self.row_bytes() * self.height
    }
}

/// A picture. Rows run from the top, pixels from the left, without padding.
///
/// Each side is 1 to [`LARGEST_SIDE`]; only a picture that a file shows may be wider, and
/// the operations refuse it by 3.
#[derive(Clone, Debug, PartialEq, Eq)]
pub struct Picture {
    size: Size,
    samples: Vec<u8>,
}

impl Picture {
    /// A picture of this size.
    ///
    /// # Errors
    ///
    /// Refused by 2 and 3 for its sides, and by 4 where there are more or fewer
    /// samples than the size says.
    ///
    /// ```
    /// use multisize::{Picture, Refusal, Size};
    ///
    /// assert!(Picture::new(Size::rgb(1, 2), vec![1, 2, 3, 4, 5, 6]).is_ok());
    /// assert_eq!(Picture::new(Size::grey(3, 2), vec![0; 5]), Err(Refusal::Length));
    /// ```
    pub fn new(size: Size, samples: Vec<u8>) -> Result<Picture, Refusal> {
        // The archive judges the size. No row fits no space, so where 2 to 4
        // don't apply the answer is 8.
        match archive::energies(&samples, size, Method::default(), 0, &mut []) {
            Ok(()) | Err(Refusal::Space) => Ok(Picture { size, samples }),
            Err(refusal) => Err(refusal),
        }
    }

    /// The picture at the front of a space that an operation wrote.
    pub(crate) fn front(size: Size, space: Vec<u8>) -> Picture {
        let mut picture = Picture {
            size,
            samples: space,
        };
        picture.keep(size);
        picture.samples.shrink_to_fit();
        picture
    }

    /// What a cut has left at the front of the samples, with its size.
    pub(crate) fn keep(&mut self, size: Size) {
        self.size = size;
        self.samples.truncate(size.bytes());
    }

    pub(crate) fn samples_mut(&mut self) -> &mut [u8] {
        &mut self.samples
    }

    /// Width, height and kind.
    pub fn size(&self) -> Size {
        self.size
    }

    /// The samples of all rows, one row after the other.
    pub fn samples(&self) -> &[u8] {
        &self.samples
    }

    /// The samples, without the picture.
    pub fn into_samples(self) -> Vec<u8> {
        self.samples
    }

    /// The samples of row `r`, counted from 0; none where there is no such row.
    ///
    /// ```
    /// use multisize::{Picture, Size};
    ///
    /// let picture = Picture::new(Size::grey(3, 2), vec![10, 10, 40, 10, 50, 40])?;
    /// assert_eq!(picture.row(1), [10, 50, 40]);
    /// assert_eq!(picture.row(2), []);
    /// # Ok::<(), multisize::Refusal>(())
    /// ```
    pub fn row(&self, r: usize) -> Vec<u8> {
        let mut row = vec![0; self.size.row_bytes()];
        let length = archive::row(&self.samples, self.size, r, &mut row).unwrap_or(0);
        row.truncate(length);
        row
    }

    /// The energies of the pixels of row `r`, counted from 0, by the default method,
    /// which is [`Energy::Edge`](crate::Energy::Edge). [`Carver::energies`] gives those
    /// by another one.
    ///
    /// # Errors
    ///
    /// Refused by 3 for a picture wider than [`LARGEST_SIDE`], and by 4 where there is no
    /// such row.
    ///
    /// ```
    /// use multisize::{Picture, Size};
    ///
    /// let picture = Picture::new(Size::grey(3, 2), vec![10, 10, 40, 10, 50, 40])?;
    /// assert_eq!(picture.energies(0)?, [0, 70, 30]);
    /// # Ok::<(), multisize::Refusal>(())
    /// ```
    pub fn energies(&self, r: usize) -> Result<Vec<u32>, Refusal> {
        Carver::new().energies(self, r)
    }
}
