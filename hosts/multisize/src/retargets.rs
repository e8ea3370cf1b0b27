//! Rows and columns removed together.

use crate::archive;
use crate::carver::Carver;
use crate::picture::{Picture, Size};
use crate::refusal::Refusal;

/// The most rows, and the most columns, that a retarget removes.
pub const LARGEST_COUNT: usize = 64;

/// A count of rows to remove.
#[derive(Clone, Copy, Debug, PartialEq, Eq)]
pub struct Rows(pub usize);

/// A count of columns to remove.
#[derive(Clone, Copy, Debug, PartialEq, Eq)]
pub struct Columns(pub usize);

/// What a retarget gives.
#[derive(Clone, Debug, PartialEq, Eq)]
pub struct Retargeted {
    /// The picture left.
    pub picture: Picture,
    /// The sum of the costs of the seams cut.
    pub total: u64,
}

impl Carver {
    /// The picture with `rows` rows and `columns` columns less. For every smaller
    /// number of rows and columns one picture is kept, and the next comes from the one
    /// with a row more or the one with a column more, by the cheapest seam of each:
    /// the smaller total is chosen, on a tie the vertical cut. Orders that leave the
    /// pictures kept aren't tried.
    ///
    /// # Errors
    ///
    /// Refused by 3 for a picture wider than [`LARGEST_SIDE`](crate::LARGEST_SIDE), and by 7 where either count is
    /// over [`LARGEST_COUNT`] or no row or column would be left.
    ///
    /// ```
    /// use multisize::{Carver, Columns, Picture, Rows, Size};
    ///
    /// let picture = Picture::new(Size::grey(3, 2), vec![10, 10, 40, 10, 50, 40])?;
    /// let given = Carver::new().retarget(&picture, Rows(0), Columns(2))?;
    /// assert_eq!(given.picture.samples(), [10, 50]);
    /// assert_eq!(given.total, 80);
    /// # Ok::<(), multisize::Refusal>(())
    /// ```
    pub fn retarget(
        &mut self,
        picture: &Picture,
        rows: Rows,
        columns: Columns,
    ) -> Result<Retargeted, Refusal> {
        let (size, method) = (picture.size(), self.method());
        // A count that leaves nothing is refused by 7, whatever space there is.
        let left = Size {
            width: size.width.saturating_sub(columns.0),
            height: size.height.saturating_sub(rows.0),
            ..size
        };
        let mut out = vec![0; left.bytes()];
        let work = self.space(32 * size.pixels() + 66 * size.bytes());
        let samples = picture.samples();
        let total = archive::retarget(samples, size, method, rows, columns, &mut out, work)?;
        let picture = Picture::front(left, out);
        Ok(Retargeted { picture, total })
    }
}
