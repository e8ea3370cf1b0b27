//! One seam of a picture, found or cut, without marks and with them.

use crate::archive;
use crate::carver::Carver;
use crate::picture::{Picture, Size};
use crate::refusal::Refusal;

/// Which way a seam runs: there are these two ways and no others.
#[derive(Clone, Copy, Debug, PartialEq, Eq, Hash)]
pub enum Axis {
    /// From the top to the bottom, one column for each row.
    Vertical,
    /// From the left to the right, one row for each column.
    Horizontal,
}

impl Axis {
    /// How many places a seam has.
    fn length(self, size: Size) -> usize {
        match self {
            Axis::Vertical => size.height,
            Axis::Horizontal => size.width,
        }
    }

    /// The size of the picture after a cut.
    fn left(self, size: Size) -> Size {
        let Size { width, height, .. } = size;
        match self {
            Axis::Vertical => Size {
                width: width - 1,
                ..size
            },
            Axis::Horizontal => Size {
                height: height - 1,
                ..size
            },
        }
    }
}

/// A seam and its cost.
#[derive(Clone, Debug, PartialEq, Eq)]
pub struct Seam {
    /// Its column in each row from the top, or its row in each column from the
    /// left.
    pub places: Vec<u16>,
    /// The sum of what its steps cost, by [`Energy::Edge`](crate::Energy::Edge) and
    /// [`Energy::Flat`](crate::Energy::Flat) the sum of its energies.
    pub cost: u64,
}

impl Carver {
    /// Finds the cheapest seam.
    ///
    /// # Errors
    ///
    /// Refused by 3 for a picture wider than [`LARGEST_SIDE`](crate::LARGEST_SIDE).
    ///
    /// ```
    /// use multisize::{Axis, Carver, Picture, Size};
    ///
    /// let picture = Picture::new(Size::grey(3, 2), vec![10, 10, 40, 10, 50, 40])?;
    /// let seam = Carver::new().find(&picture, Axis::Vertical)?;
    /// assert_eq!((seam.places, seam.cost), (vec![0, 0], 40));
    /// # Ok::<(), multisize::Refusal>(())
    /// ```
    pub fn find(&mut self, picture: &Picture, axis: Axis) -> Result<Seam, Refusal> {
        let (size, method) = (picture.size(), self.method());
        let mut places = vec![0; axis.length(size)];
        let work = self.space_of(size);
        let cost = archive::find(picture.samples(), size, method, axis, &mut places, work)?;
        Ok(Seam { places, cost })
    }

    /// Cuts the cheapest seam out of the picture.
    ///
    /// # Errors
    ///
    /// Refused as [`find`](Carver::find) is, and by 13 at the last column or
    /// row. The picture is then unchanged.
    ///
    /// ```
    /// use multisize::{Axis, Carver, Picture, Size};
    ///
    /// let mut picture = Picture::new(Size::grey(3, 2), vec![10, 10, 40, 10, 50, 40])?;
    /// let seam = Carver::new().cut(&mut picture, Axis::Vertical)?;
    /// assert_eq!(seam.places, [0, 0]);
    /// assert_eq!(picture.size(), Size::grey(2, 2));
    /// assert_eq!(picture.samples(), [10, 40, 50, 40]);
    /// # Ok::<(), multisize::Refusal>(())
    /// ```
    pub fn cut(&mut self, picture: &mut Picture, axis: Axis) -> Result<Seam, Refusal> {
        let (size, method) = (picture.size(), self.method());
        let mut places = vec![0; axis.length(size)];
        let work = self.space_of(size);
        let cost = archive::cut(picture.samples_mut(), size, method, axis, &mut places, work)?;
        picture.keep(axis.left(size));
        Ok(Seam { places, cost })
    }

    /// Finds the seam by marks, one byte a pixel: of those that touch no pixel
    /// marked [`PROTECTED`](crate::PROTECTED), the one with the most pixels
    /// marked [`REMOVE`](crate::REMOVE), then the cheapest.
    ///
    /// # Errors
    ///
    /// Refused by 3 for a picture wider than [`LARGEST_SIDE`](crate::LARGEST_SIDE), by 4 unless there is one mark
    /// a pixel, by 5 for a mark over 2, and by 12 where every seam meets a
    /// protected pixel.
    ///
    /// ```
    /// use multisize::{Axis, Carver, Picture, Size};
    ///
    /// let picture = Picture::new(Size::grey(3, 2), vec![10, 10, 40, 10, 50, 40])?;
    /// let marks = [0, 2, 1, 0, 0, 0];
    /// let seam = Carver::new().find_marked(&picture, &marks, Axis::Vertical)?;
    /// assert_eq!((seam.places, seam.cost), (vec![1, 2], 80));
    /// # Ok::<(), multisize::Refusal>(())
    /// ```
    pub fn find_marked(
        &mut self,
        picture: &Picture,
        marks: &[u8],
        axis: Axis,
    ) -> Result<Seam, Refusal> {
        let (size, method) = (picture.size(), self.method());
        let mut places = vec![0; axis.length(size)];
        let work = self.space_of(size);
        let samples = picture.samples();
        let cost = archive::find_marked(samples, marks, size, method, axis, &mut places, work)?;
        Ok(Seam { places, cost })
    }

    /// Cuts the seam by marks out of the picture and out of the marks.
    ///
    /// # Errors
    ///
    /// Refused as [`find_marked`](Carver::find_marked) is, and by 13 at the last
    /// column or row. Picture and marks are then unchanged.
    ///
    /// ```
    /// use multisize::{Axis, Carver, Picture, Size};
    ///
    /// let mut picture = Picture::new(Size::grey(3, 2), vec![10, 10, 40, 10, 50, 40])?;
    /// let mut marks = vec![0, 2, 1, 0, 0, 0];
    /// Carver::new().cut_marked(&mut picture, &mut marks, Axis::Vertical)?;
    /// assert_eq!(picture.samples(), [10, 40, 10, 50]);
    /// assert_eq!(marks, [0, 1, 0, 0]);
    /// # Ok::<(), multisize::Refusal>(())
    /// ```
    pub fn cut_marked(
        &mut self,
        picture: &mut Picture,
        marks: &mut Vec<u8>,
        axis: Axis,
    ) -> Result<Seam, Refusal> {
        let (size, method) = (picture.size(), self.method());
        let mut places = vec![0; axis.length(size)];
        let work = self.space_of(size);
        let samples = picture.samples_mut();
        let cost = archive::cut_marked(samples, marks, size, method, axis, &mut places, work)?;
        picture.keep(axis.left(size));
        marks.truncate(picture.size().pixels());
        Ok(Seam { places, cost })
    }
}
