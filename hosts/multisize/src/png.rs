//! PNG pictures: those of up to 8 bits a sample and without transparency are read,
//! and grey and rgb are written with 8 bits a sample.

mod bits;
mod checksums;
mod chunks;
mod codes;
mod deflate;
mod described;
mod error;
mod filters;
mod head;
mod huffman;
mod inflate;
mod matches;
mod read;
mod rows;
mod symbols;
mod write;

pub use error::Error;
pub use read::{read, sides};
pub use write::{write, zlib};

/// The bytes that every PNG begins with.
pub const SIGNATURE: [u8; 8] = *b"\x89PNG\r\n\x1a\n";
