//! A second, independent implementation of the seam-carving specification.
//!
//! It is written from the text of the specification alone and serves to check
//! another implementation of the same text. Every operation judges its
//! arguments in the order of the refusal numbers, so that the smallest number
//! is given, and makes its first write only after 1 to 8 are ruled out.

#![forbid(unsafe_code)]

mod cut;
mod energy;
mod file;
mod grid;
mod map;
mod netpbm;
mod object;
mod picture;
mod programs;
mod refusal;
mod retarget;
mod seam;
mod text;
mod widths;

pub use cut::{cut, cut_marked};
pub use energy::{energies, step_costs, EnergyRule, Method};
pub use file::{build, check, read, show, FileInfo};
pub use object::{remove_object, Ending};
pub use picture::{row, Kind, Size, LARGEST_SIDE};
pub use programs::{fit_program, seams_program};
pub use refusal::Refusal;
pub use retarget::{retarget, Columns, Rows};
pub use seam::{find, find_marked, Axis};
pub use text::energy_word;
pub use widths::row_at;
