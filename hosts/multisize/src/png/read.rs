//! A PNG read: its parts, its rows, its colours.

use super::chunks::{Chunk, Chunks};
use super::error::Error;
use super::head::{self, Colour, PngHead};
use super::{inflate, rows, SIGNATURE};
use crate::picture::{Picture, Size};

/// What the parts of a PNG say: the head, the colours by their numbers, the packed
/// rows.
struct Parts {
    head: PngHead,
    palette: Vec<[u8; 3]>,
    data: Vec<u8>,
}

/// The picture in the bytes of a PNG: grey or with a palette of up to 8 bits, or rgb
/// of 8 bits, interlaced or not. Samples of fewer bits are spread over 0 to 255, and a
/// palette gives rgb. What stands after the last part isn't looked at.
///
/// # Errors
///
/// Says what is wrong: no PNG, cut short, damaged, 16 bits, transparency, or sides that
/// aren't 1 to [`LARGEST_SIDE`](crate::LARGEST_SIDE). Sides are judged before any
/// pixel is unpacked, and no more is unpacked than they need.
///
/// ```
/// use multisize::{png, Picture, Size};
///
/// let picture = Picture::new(Size::grey(2, 1), vec![7, 9]).unwrap();
/// assert_eq!(png::read(&png::write(&picture)), Ok(picture));
/// ```
pub fn read(bytes: &[u8]) -> Result<Picture, Error> {
    let Parts {
        head,
        palette,
        data,
    } = parts(bytes)?;
    let lines = inflate::unpacked(&data, rows::packed_bytes(&head))?;
    let numbers = rows::numbers(&head, lines)?;
    let samples = match head.colour {
        Colour::Grey => spread(numbers, head.depth),
        Colour::Rgb => numbers,
        Colour::Palette => coloured(&numbers, &palette)?,
    };
    let size = Size {
        width: head.width,
        height: head.height,
        kind: head.colour.kind(),
    };
    Picture::new(size, samples).map_err(|_| Error::Damaged("its size isn't served"))
}

/// Width and height that the head of a PNG says, also where [`read`] refuses it.
///
/// ```
/// use multisize::{png, Picture, Size};
///
/// let picture = Picture::new(Size::grey(2, 1), vec![7, 9])?;
/// assert_eq!(png::sides(&png::write(&picture)), Some((2, 1)));
/// assert_eq!(png::sides(b"GIF89a"), None);
/// # Ok::<(), multisize::Refusal>(())
/// ```
pub fn sides(bytes: &[u8]) -> Option<(u32, u32)> {
    let first = Chunks(bytes.strip_prefix(&SIGNATURE)?).next().ok()?;
    let head = Some(first).filter(|first| &first.name == b"IHDR")?;
    head::sides(head.bytes)
}

/// Takes the parts up to the last one.
fn parts(bytes: &[u8]) -> Result<Parts, Error> {
    let rest = bytes.strip_prefix(&SIGNATURE).ok_or(Error::Signature)?;
    let mut chunks = Chunks(rest);
    let first = chunks.next()?;
    if &first.name != b"IHDR" {
        return Err(Error::Damaged("it doesn't begin with its head"));
    }
    let mut parts = Parts {
        head: head::parse(first.bytes)?,
        palette: Vec::new(),
        data: Vec::new(),
    };
    loop {
        let chunk = chunks.next()?;
        if &chunk.name == b"IEND" {
            return Ok(parts);
        }
        parts.take(&chunk)?;
    }
}

impl Parts {
    fn take(&mut self, chunk: &Chunk) -> Result<(), Error> {
        match &chunk.name {
            b"IDAT" => self.data.extend_from_slice(chunk.bytes),
            b"PLTE" => self.take_palette(chunk.bytes)?,
            b"tRNS" => return Err(Error::Unread("transparent colours")),
            _ if chunk.is_critical() => {
                return Err(Error::Damaged("it has a part that PNG doesn't have"))
            }
            _ => {}
        }
        Ok(())
    }

    /// Takes the palette: three bytes a colour, one colour at least, and no more than
    /// there are numbers for a pixel.
    fn take_palette(&mut self, bytes: &[u8]) -> Result<(), Error> {
        let most = match self.head.colour {
            Colour::Palette => 1 << self.head.depth,
            _ => 256,
        };
        let whole = bytes.len().is_multiple_of(3) && (1..=most).contains(&(bytes.len() / 3));
        if !whole || !self.palette.is_empty() || !self.data.is_empty() {
            return Err(Error::Damaged("its palette isn't as it must be"));
        }
        let colours = bytes.chunks_exact(3);
        self.palette = colours
            .map(|colour| [colour[0], colour[1], colour[2]])
            .collect();
        Ok(())
    }
}

/// Numbers of so many bits as samples: the largest becomes 255.
fn spread(mut numbers: Vec<u8>, depth: usize) -> Vec<u8> {
    let step = 255 / (255 >> (8 - depth));
    numbers.iter_mut().for_each(|number| *number *= step);
    numbers
}

/// The colours that the numbers stand for.
fn coloured(numbers: &[u8], palette: &[[u8; 3]]) -> Result<Vec<u8>, Error> {
    let mut samples = Vec::with_capacity(3 * numbers.len());
    for number in numbers {
        let colour = palette.get(usize::from(*number));
        let none = Error::Damaged("a pixel has a colour that the palette hasn't");
        samples.extend_from_slice(colour.ok_or(none)?);
    }
    Ok(samples)
}
