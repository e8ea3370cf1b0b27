//! What the first part of a PNG says: sides, colours, depth, and the order of rows.

use super::error::Error;
use crate::picture::{Kind, LARGEST_SIDE};

/// What the samples of a pixel are.
#[derive(Clone, Copy, Debug, PartialEq, Eq)]
pub enum Colour {
    Grey,
    Rgb,
    /// One sample, the number of a colour.
    Palette,
}

impl Colour {
    /// How many samples a pixel has in the file.
    pub fn channels(self) -> usize {
        match self {
            Colour::Grey | Colour::Palette => 1,
            Colour::Rgb => 3,
        }
    }

    /// The kind of the picture.
    pub fn kind(self) -> Kind {
        match self {
            Colour::Grey => Kind::Grey,
            Colour::Rgb | Colour::Palette => Kind::Rgb,
        }
    }
}

/// The first part, judged: each side is 1 to LARGEST_SIDE, the depth 1, 2, 4 or 8.
#[derive(Clone, Copy, Debug, PartialEq, Eq)]
pub struct PngHead {
    pub width: usize,
    pub height: usize,
    pub depth: usize,
    pub colour: Colour,
    pub interlaced: bool,
}

impl PngHead {
    /// The bytes of a row of so many pixels, the last one filled up.
    pub fn row_bytes(&self, pixels: usize) -> usize {
        (pixels * self.colour.channels() * self.depth).div_ceil(8)
    }

    /// How far to the left the filters look.
    pub fn pixel_bytes(&self) -> usize {
        self.row_bytes(1)
    }
}

/// Reads and judges the bytes of the first part. The sides come last, so that what
/// isn't read at any size is told first.
pub fn parse(bytes: &[u8]) -> Result<PngHead, Error> {
    let head: &[u8; 13] = bytes
        .try_into()
        .map_err(|_| Error::Damaged("its head isn't 13 bytes long"))?;
    let [depth, colour, compression, filter, interlace] =
        [head[8], head[9], head[10], head[11], head[12]];
    let colour = colour_of(colour, depth)?;
    if (compression, filter) != (0, 0) || interlace > 1 {
        let how = "its head has a number that PNG doesn't have";
        return Err(Error::Damaged(how));
    }
    let (width, height) = sides(head).ok_or(Error::Short)?;
    let allowed = |side: u32| {
        usize::try_from(side)
            .ok()
            .filter(|side| (1..=LARGEST_SIDE).contains(side))
    };
    let (Some(wide), Some(high)) = (allowed(width), allowed(height)) else {
        return Err(Error::Sides { width, height });
    };
    Ok(PngHead {
        width: wide,
        height: high,
        depth: usize::from(depth),
        colour,
        interlaced: interlace == 1,
    })
}

/// Width and height, which come first.
pub fn sides(head: &[u8]) -> Option<(u32, u32)> {
    let (width, rest) = head.split_first_chunk()?;
    let (height, _) = rest.split_first_chunk()?;
    Some((u32::from_be_bytes(*width), u32::from_be_bytes(*height)))
}

/// The colours by their number, with a depth that they may have.
fn colour_of(number: u8, depth: u8) -> Result<Colour, Error> {
    match (number, depth) {
        (0, 1 | 2 | 4 | 8) => Ok(Colour::Grey),
        (2, 8) => Ok(Colour::Rgb),
        (3, 1 | 2 | 4 | 8) => Ok(Colour::Palette),
        (4 | 6, 8 | 16) => Err(Error::Unread("alpha")),
        (0 | 2, 16) => Err(Error::Unread("16 bits a sample")),
        _ => Err(Error::Damaged("its colours and depth don't go together")),
    }
}

#[cfg(test)]
mod tests {
    use super::*;

    fn parsed(width: u32, height: u32, rest: [u8; 5]) -> Result<PngHead, Error> {
        let sides = [width.to_be_bytes(), height.to_be_bytes()].concat();
        parse(&[sides.as_slice(), &rest].concat())
    }

    #[test]
    fn colours_and_depths() {
        let colour = |number, depth| parsed(3, 2, [depth, number, 0, 0, 0]).map(|head| head.colour);
        for depth in [1, 2, 4, 8] {
            assert_eq!(colour(0, depth), Ok(Colour::Grey));
            assert_eq!(colour(3, depth), Ok(Colour::Palette));
        }
        assert_eq!(colour(2, 8), Ok(Colour::Rgb));
        for (number, depth) in [(4, 8), (4, 16), (6, 8), (6, 16)] {
            assert_eq!(colour(number, depth), Err(Error::Unread("alpha")));
        }
        for number in [0, 2] {
            let deep = Err(Error::Unread("16 bits a sample"));
            assert_eq!(colour(number, 16), deep);
        }
        for (number, depth) in [(2, 4), (3, 16), (1, 8), (5, 8), (0, 3), (7, 8), (0, 0)] {
            assert!(matches!(colour(number, depth), Err(Error::Damaged(_))));
        }
    }

    #[test]
    fn sides_and_the_other_numbers() {
        let plain = [8, 0, 0, 0, 0];
        for side in [1, 512] {
            assert!(parsed(side, side, plain).is_ok());
        }
        for (width, height) in [(0, 1), (1, 0), (513, 1), (1, 513), (u32::MAX, u32::MAX)] {
            let sides = Error::Sides { width, height };
            assert_eq!(parsed(width, height, plain), Err(sides));
        }
        assert!(parsed(1, 1, [8, 0, 0, 0, 1]).unwrap().interlaced);
        for rest in [[8, 0, 1, 0, 0], [8, 0, 0, 1, 0], [8, 0, 0, 0, 2]] {
            assert!(matches!(parsed(1, 1, rest), Err(Error::Damaged(_))));
        }
        assert!(parse(&[0; 12]).is_err() && parse(&[0; 14]).is_err());
    }

    #[test]
    fn rows_fill_whole_bytes() {
        let row = |colour, depth, pixels| {
            let head = parsed(9, 9, [depth, colour, 0, 0, 0]).unwrap();
            (head.row_bytes(pixels), head.pixel_bytes())
        };
        assert_eq!(row(0, 1, 8), (1, 1));
        assert_eq!(row(0, 1, 9), (2, 1));
        assert_eq!(row(3, 4, 3), (2, 1));
        assert_eq!(row(2, 8, 3), (9, 3));
    }
}
