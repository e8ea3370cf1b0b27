//! The method and the work space of the operations.

use crate::archive;
use crate::method::Method;
use crate::picture::{Picture, Size};
use crate::refusal::Refusal;

/// What coming to each pixel of a row costs a vertical seam, by where it comes from. By
/// [`Energy::Edge`](crate::Energy::Edge) and [`Energy::Flat`](crate::Energy::Flat) all
/// three are the pixel's energy, by [`Energy::Forward`](crate::Energy::Forward) in row 0.
#[derive(Clone, Debug, PartialEq, Eq)]
pub struct StepCosts {
    /// From the column to its left in the row above.
    pub left: Vec<u32>,
    /// From straight above.
    pub up: Vec<u32>,
    /// From the column to its right in the row above.
    pub right: Vec<u32>,
}

/// Has the operations that find seams: by its [`Method`], and with work space that
/// it keeps from one call to the next. The space grows to the largest that was
/// needed: 32 bytes a pixel, and 66 pictures more for a retarget.
///
/// ```
/// use multisize::{Axis, Carver, Picture, Size};
///
/// let mut picture = Picture::new(Size::grey(3, 2), vec![10, 10, 40, 10, 50, 40])?;
/// let mut carver = Carver::new();
/// while picture.size().width > 1 {
///     carver.cut(&mut picture, Axis::Vertical)?;
/// }
/// assert_eq!(picture.samples(), [10, 50]);
/// # Ok::<(), multisize::Refusal>(())
/// ```
#[derive(Debug, Default)]
pub struct Carver {
    method: Method,
    space: Vec<u8>,
}

impl Carver {
    /// A carver by the default method, without work space yet.
    pub fn new() -> Carver {
        Carver::default()
    }

    /// A carver by this method, without work space yet. A file says its own method,
    /// by which it is checked, read and shown, whatever this one is.
    ///
    /// ```
    /// use multisize::{Axis, Carver, Energy, Method, Picture, Size};
    ///
    /// let picture = Picture::new(Size::grey(3, 2), vec![10, 10, 40, 10, 50, 40])?;
    /// let method = Method::default().with_energy(Energy::Flat);
    /// let mut carver = Carver::by(method);
    /// assert_eq!(carver.method(), method);
    /// let seam = carver.find(&picture, Axis::Vertical)?;
    /// assert_eq!((seam.places, seam.cost), (vec![2, 2], 0));
    /// # Ok::<(), multisize::Refusal>(())
    /// ```
    ///
    /// The energy alone may stand for the method that is the default otherwise:
    ///
    /// ```
    /// use multisize::{Carver, Energy};
    ///
    /// assert_eq!(Carver::by(Energy::Flat).method().energy, Energy::Flat);
    /// assert_eq!(Carver::new().method().energy, Energy::Edge);
    /// ```
    pub fn by(method: impl Into<Method>) -> Carver {
        Carver {
            method: method.into(),
            space: Vec::new(),
        }
    }

    /// The method that it carves by.
    pub fn method(&self) -> Method {
        self.method
    }

    /// The energies of the pixels of row `r`, counted from 0, by the carver's method. By
    /// [`Energy::Edge`](crate::Energy::Edge) and [`Energy::Flat`](crate::Energy::Flat) the
    /// cost of a seam is the sum of these; by [`Energy::Forward`](crate::Energy::Forward)
    /// they are what a pixel costs that the seam comes to from straight above.
    ///
    /// # Errors
    ///
    /// Refused by 3 for a picture wider than [`LARGEST_SIDE`](crate::LARGEST_SIDE), and by 4 where there is no
    /// such row.
    ///
    /// ```
    /// use multisize::{Carver, Energy, Picture, Size};
    ///
    /// let picture = Picture::new(Size::grey(3, 2), vec![10, 10, 40, 10, 50, 40])?;
    /// assert_eq!(Carver::by(Energy::Edge).energies(&picture, 0)?, [0, 70, 30]);
    /// assert_eq!(Carver::by(Energy::Flat).energies(&picture, 0)?, [0, 70, 0]);
    /// # Ok::<(), multisize::Refusal>(())
    /// ```
    pub fn energies(&self, picture: &Picture, r: usize) -> Result<Vec<u32>, Refusal> {
        let size = picture.size();
        let mut energies = vec![0; size.width];
        archive::energies(picture.samples(), size, self.method, r, &mut energies)?;
        Ok(energies)
    }

    /// What coming to each pixel of row `r`, counted from 0, costs a vertical seam by the
    /// carver's method. The cost of a seam is the sum of its steps; in row 0, where it
    /// begins, of what the pixel costs from straight above.
    ///
    /// # Errors
    ///
    /// Refused by 3 for a picture wider than [`LARGEST_SIDE`](crate::LARGEST_SIDE), and by 4 where there is no
    /// such row.
    ///
    /// ```
    /// use multisize::{Carver, Energy, Picture, Size};
    ///
    /// let picture = Picture::new(Size::grey(3, 2), vec![10, 10, 40, 10, 50, 40])?;
    /// let costs = Carver::by(Energy::Forward).step_costs(&picture, 1)?;
    /// assert_eq!(costs.left, [40, 30, 20]);
    /// assert_eq!(costs.up, [40, 30, 10]);
    /// assert_eq!(costs.right, [80, 60, 10]);
    /// # Ok::<(), multisize::Refusal>(())
    /// ```
    pub fn step_costs(&self, picture: &Picture, r: usize) -> Result<StepCosts, Refusal> {
        let size = picture.size();
        let [mut left, mut up, mut right] = [(); 3].map(|_| vec![0; size.width]);
        let spaces: [&mut [u32]; 3] = [&mut left, &mut up, &mut right];
        archive::step_costs(picture.samples(), size, self.method, r, spaces)?;
        Ok(StepCosts { left, up, right })
    }

    /// Work space of `bytes` bytes. An operation clears all that it is lent, so it
    /// is lent no more than it needs.
    pub(crate) fn space(&mut self, bytes: usize) -> &mut [u8] {
        if self.space.len() < bytes {
            self.space.resize(bytes, 0);
        }
        &mut self.space[..bytes]
    }

    /// The work space for a picture of this size.
    pub(crate) fn space_of(&mut self, size: Size) -> &mut [u8] {
        self.space(32 * size.pixels())
    }
}
