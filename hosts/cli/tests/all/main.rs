//! Runs the program and looks at its output, its status and the files it leaves.

mod carve;
mod decoder;
mod energies;
mod errors;
mod files;
mod formats;
mod helpers;
mod inflate;
mod kept;
mod page;
mod pictures;
mod png;
