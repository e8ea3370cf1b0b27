//! Multi-size files: built, checked, read, shown at a width.

use crate::archive;
use crate::carver::Carver;
use crate::method::Method;
use crate::picture::{Kind, Picture, Size, LARGEST_SIDE};
use crate::refusal::Refusal;
use std::ops::RangeInclusive;

/// The most pixels of a picture in a file.
const MOST_PIXELS: usize = LARGEST_SIDE * LARGEST_SIDE;

/// How much narrower and wider than its picture a file can be shown.
#[derive(Clone, Copy, Debug, PartialEq, Eq)]
pub struct Range {
    /// The number of seams that the map holds.
    pub depth: usize,
    /// How many columns wider the widest is.
    pub growth: usize,
}

impl Range {
    /// All widths from 1 to half as much again.
    ///
    /// ```
    /// use multisize::Range;
    ///
    /// assert_eq!(Range::full(3), Range { depth: 2, growth: 1 });
    /// ```
    pub fn full(width: usize) -> Range {
        Range::deep(width, width.saturating_sub(1))
    }

    /// This depth, and the most growth allowed with it.
    pub fn deep(width: usize, depth: usize) -> Range {
        let growth = depth.min(width / 2);
        Range { depth, growth }
    }
}

/// What a file says of its picture.
#[derive(Clone, Copy, Debug, PartialEq, Eq)]
pub struct Head {
    /// The size of its picture.
    pub size: Size,
    /// The method that its seams are found by.
    pub method: Method,
    /// Its depth and growth.
    pub range: Range,
}

impl Head {
    /// The widths that the file offers.
    pub fn widths(self) -> RangeInclusive<usize> {
        let (width, Range { depth, growth }) = (self.size.width, self.range);
        width.saturating_sub(depth)..=width.saturating_add(growth)
    }
}

/// What is read from a file.
#[derive(Clone, Debug, PartialEq, Eq)]
pub struct Contents {
    /// The picture.
    pub picture: Picture,
    /// For each pixel the number of the seam that took it, or 0.
    pub map: Vec<u16>,
    /// The method that the seams were found by.
    pub method: Method,
    /// Depth and growth.
    pub range: Range,
}

impl Contents {
    /// What the file says of its picture.
    pub fn head(&self) -> Head {
        Head {
            size: self.picture.size(),
            method: self.method,
            range: self.range,
        }
    }

    /// Gives the picture at a width. What [`Carver::read`] gives was checked, so this
    /// is what [`Carver::show`] gives of the file, without another check.
    ///
    /// # Errors
    ///
    /// Refused by 7 where the width isn't offered. A map that was changed since is
    /// refused by 4 where a row isn't shown at that width.
    ///
    /// ```
    /// use multisize::{Carver, Refusal};
    ///
    /// let file = b"(multi\n(size 3 1 grey)\n(range 1 1)\n(energy edge)\n\
    ///     (row 7 8 9)\n(map 1 0 0)\n)\n";
    /// let contents = Carver::new().read(file)?;
    /// assert_eq!(contents.show(2)?.samples(), [8, 9]);
    /// assert_eq!(contents.show(4)?.samples(), [7, 7, 8, 9]);
    /// assert_eq!(contents.show(5), Err(Refusal::Wanted));
    /// # Ok::<(), multisize::Refusal>(())
    /// ```
    pub fn show(&self, width: usize) -> Result<Picture, Refusal> {
        let head = self.head();
        if width == 0 || !head.widths().contains(&width) {
            return Err(Refusal::Wanted);
        }
        let size = head.size;
        if self.map.len() != size.pixels() {
            return Err(Refusal::Length);
        }
        // No row shows a pixel more than twice.
        let mut row = vec![0; 2 * size.row_bytes()];
        let mut shown = Vec::new();
        let samples = self.picture.samples().chunks(size.row_bytes());
        for (samples, numbers) in samples.zip(self.map.chunks(size.width)) {
            let length = archive::row_at(samples, size.kind, numbers, width, &mut row)?;
            if length / size.kind.channels() != width {
                return Err(Refusal::Length);
            }
            shown.extend_from_slice(&row[..length]);
        }
        Ok(Picture::front(Size { width, ..size }, shown))
    }
}

/// No accepted file is longer, in bytes: that is what one of an rgb picture with
/// sides of [`LARGEST_SIDE`] can't exceed.
pub const LONGEST_FILE: usize = longest_file(Size::rgb(LARGEST_SIDE, LARGEST_SIDE));

/// No file of a picture of this size is longer: the lines that each file has take 62
/// bytes at most, a row line and a map line 6 each, a number with its blank 4, an rgb
/// pixel two brackets more.
const fn longest_file(size: Size) -> usize {
    let pixel = match size.kind {
        Kind::Grey => 4,
        Kind::Rgb => 14,
    };
    62 + size.pixels() * (pixel + 4) + size.height * 12
}

/// No file of this length that has its form and counts needs more work space: a
/// pixel takes at least 4 bytes of text, so 8 bytes for each byte of the file
/// are 32 bytes a pixel.
fn work_of(file: &[u8]) -> usize {
    (8 * file.len()).min(32 * MOST_PIXELS)
}

/// No file of this length shows more bytes: a grey pixel takes at least 4 bytes
/// of text, an rgb pixel 10, and the widest shown is half as wide again.
fn most_shown(file: &[u8]) -> usize {
    (file.len() / 2).min(3 * MOST_PIXELS * 3 / 2)
}

impl Carver {
    /// Builds the file of a picture, which names the energy of the carver's method. The
    /// depth is at most the width less 1, the growth at most the depth and at most half
    /// the width.
    ///
    /// # Errors
    ///
    /// Refused by 3 for a picture wider than [`LARGEST_SIDE`], and by 6 where depth or growth
    /// isn't allowed.
    ///
    /// ```
    /// use multisize::{Carver, Picture, Range, Size};
    ///
    /// let picture = Picture::new(Size::grey(3, 1), vec![7, 7, 7])?;
    /// let file = Carver::new().build(&picture, Range::full(3))?;
    /// let text = "(multi\n(size 3 1 grey)\n(range 2 1)\n(energy edge)\n\
    ///     (row 7 7 7)\n(map 1 2 0)\n)\n";
    /// assert_eq!(file, text.as_bytes());
    /// # Ok::<(), multisize::Refusal>(())
    /// ```
    pub fn build(&mut self, picture: &Picture, range: Range) -> Result<Vec<u8>, Refusal> {
        let (size, method) = (picture.size(), self.method());
        let mut out = vec![0; longest_file(size)];
        let work = self.space_of(size);
        let length = archive::build(picture.samples(), size, method, range, &mut out, work)?;
        out.truncate(length);
        out.shrink_to_fit();
        Ok(out)
    }

    /// Checks a file, by the energy that it names, and gives what it says of its picture.
    ///
    /// # Errors
    ///
    /// Refused by 1 for its form, as where its energy line is missing, by 2 and 3 for the
    /// sides, by 4 for the counts, by 6 for the range, and by 9, 10 and 11 for the map.
    ///
    /// ```
    /// use multisize::{Carver, Energy, Refusal, Size};
    ///
    /// let file = b"(multi\n(size 3 1 grey)\n(range 1 0)\n(energy edge)\n\
    ///     (row 7 7 7)\n(map 1 0 0)\n)\n";
    /// let head = Carver::new().check(file)?;
    /// assert_eq!((head.size, head.widths()), (Size::grey(3, 1), 2..=3));
    /// assert_eq!(head.method.energy, Energy::Edge);
    /// assert_eq!(Carver::new().check(b"(multi"), Err(Refusal::Form));
    /// # Ok::<(), multisize::Refusal>(())
    /// ```
    pub fn check(&mut self, file: &[u8]) -> Result<Head, Refusal> {
        archive::check(file, self.space(work_of(file)))
    }

    /// Checks a file and gives its picture and map.
    ///
    /// # Errors
    ///
    /// Refused as [`check`](Carver::check) is.
    ///
    /// ```
    /// use multisize::Carver;
    ///
    /// let file = b"(multi\n(size 3 1 grey)\n(range 1 0)\n(energy edge)\n\
    ///     (row 7 7 7)\n(map 1 0 0)\n)\n";
    /// let contents = Carver::new().read(file)?;
    /// assert_eq!(contents.picture.samples(), [7, 7, 7]);
    /// assert_eq!(contents.map, [1, 0, 0]);
    /// # Ok::<(), multisize::Refusal>(())
    /// ```
    pub fn read(&mut self, file: &[u8]) -> Result<Contents, Refusal> {
        let mut samples = vec![0; most_shown(file)];
        let mut map = vec![0; (file.len() / 4).min(MOST_PIXELS)];
        let work = self.space(work_of(file));
        let head = archive::read(file, &mut samples, &mut map, work)?;
        map.truncate(head.size.pixels());
        map.shrink_to_fit();
        Ok(Contents {
            picture: Picture::front(head.size, samples),
            map,
            method: head.method,
            range: head.range,
        })
    }

    /// Checks a file and gives the picture that it shows at a width.
    ///
    /// # Errors
    ///
    /// Refused as [`check`](Carver::check) is, and by 7 where the width isn't
    /// offered.
    ///
    /// ```
    /// use multisize::{Carver, Refusal};
    ///
    /// let file = b"(multi\n(size 3 1 grey)\n(range 1 0)\n(energy edge)\n\
    ///     (row 7 8 9)\n(map 1 0 0)\n)\n";
    /// assert_eq!(Carver::new().show(file, 2)?.samples(), [8, 9]);
    /// assert_eq!(Carver::new().show(file, 4), Err(Refusal::Wanted));
    /// # Ok::<(), multisize::Refusal>(())
    /// ```
    pub fn show(&mut self, file: &[u8], width: usize) -> Result<Picture, Refusal> {
        let mut out = vec![0; most_shown(file)];
        let size = archive::show(file, width, &mut out, self.space(work_of(file)))?;
        Ok(Picture::front(size, out))
    }
}
