//! Netpbm pictures: the words of their headers and their bytes. The writer is
//! no part of the reference.

use reference::{Kind, Size};

/// The places of the words in a header.
pub const MAGIC: usize = 0;
pub const WIDTH: usize = 1;
pub const HEIGHT: usize = 2;
pub const LARGEST: usize = 3;

/// A header by its words, and the samples.
#[derive(Clone)]
pub struct Netpbm {
    /// P5 or P6, width, height, 255.
    pub words: [String; 4],
    /// What stands after each word: a line end, but a blank after the width.
    pub gaps: [String; 4],
    pub samples: Vec<u8>,
}

impl Netpbm {
    /// Any size, also one that isn't allowed.
    pub fn of(size: Size, samples: &[u8]) -> Netpbm {
        let magic = match size.kind {
            Kind::Grey => "P5",
            Kind::Rgb => "P6",
        };
        let (width, height) = (size.width.to_string(), size.height.to_string());
        Netpbm {
            words: [String::from(magic), width, height, String::from("255")],
            gaps: ["\n", " ", "\n", "\n"].map(String::from),
            samples: samples.to_vec(),
        }
    }

    pub fn bytes(&self) -> Vec<u8> {
        let mut text = String::new();
        for (word, gap) in self.words.iter().zip(&self.gaps) {
            text += word;
            text += gap;
        }
        let mut bytes = text.into_bytes();
        bytes.extend_from_slice(&self.samples);
        bytes
    }
}

#[cfg(test)]
mod tests {
    use super::*;

    #[test]
    fn pictures_of_both_kinds() {
        let mut size = Size {
            width: 3,
            height: 2,
            kind: Kind::Grey,
        };
        let picture = Netpbm::of(size, b"abcdef");
        assert_eq!(picture.bytes(), b"P5\n3 2\n255\nabcdef");
        size.kind = Kind::Rgb;
        assert_eq!(Netpbm::of(size, b"").bytes(), b"P6\n3 2\n255\n");
    }
}
