//! Seam carving and multi-size files, over an archive of proved functions.
//!
//! A [`Picture`] has a size, a kind and samples. A [`Carver`] keeps the
//! [`Method`], which names the [`Energy`], and the work space, and has the operations:
//! it finds and cuts seams, removes marked objects, retargets in both directions, and
//! builds, checks, reads and shows multi-size files. Each gives its answer or a
//! [`Refusal`] with its number; after a refusal everything lent is as it was.
//! [`netpbm`] reads and writes pictures as P5 and P6, [`png`] as PNG.
//!
//! ```
//! use multisize::{Carver, Picture, Range, Size};
//!
//! let picture = Picture::new(Size::grey(3, 2), vec![10, 10, 40, 10, 50, 40])?;
//! let mut carver = Carver::new();
//! let file = carver.build(&picture, Range::full(3))?;
//! assert_eq!(carver.check(&file)?.widths(), 1..=4);
//! let narrow = carver.show(&file, 2)?;
//! assert_eq!(narrow.samples(), [10, 40, 50, 40]);
//! # Ok::<(), multisize::Refusal>(())
//! ```

mod archive;
mod carver;
mod files;
mod method;
pub mod netpbm;
mod objects;
mod picture;
pub mod png;
mod refusal;
mod retargets;
mod seams;

pub use carver::{Carver, StepCosts};
pub use files::{Contents, Head, Range, LONGEST_FILE};
pub use method::{Energy, Method};
pub use objects::{Ending, PLAIN, PROTECTED, REMOVE};
pub use picture::{Kind, Picture, Size, LARGEST_SIDE};
pub use refusal::Refusal;
pub use retargets::{Columns, Retargeted, Rows, LARGEST_COUNT};
pub use seams::{Axis, Seam};
