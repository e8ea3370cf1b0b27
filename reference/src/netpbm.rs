//! Netpbm pictures, P5 for grey and P6 for rgb.

use crate::picture::{Kind, Size};
use crate::refusal::{ensure, Refusal, FORM};
use crate::text::read_number;

/// The two bytes that begin a Netpbm picture of a kind.
fn magic(kind: Kind) -> &'static str {
    match kind {
        Kind::Grey => "P5",
        Kind::Rgb => "P6",
    }
}

/// Reads the header: P5 or P6, byte 10, width, blank, height, byte 10, 255,
/// byte 10. Gives the size and the sample bytes after the header. Refusal 1
/// is judged here and nothing else.
pub fn read_header(input: &[u8]) -> Result<(Size, &[u8]), Refusal> {
    let (first, rest) = split_at_line_end(input)?;
    let (second, rest) = split_at_line_end(rest)?;
    let (third, samples) = split_at_line_end(rest)?;
    let kind = read_magic(first)?;
    let numbers: Vec<&[u8]> = second.split(|byte| *byte == b' ').collect();
    ensure(numbers.len() == 2, FORM)?;
    let size = Size {
        width: read_number(numbers[0])?,
        height: read_number(numbers[1])?,
        kind,
    };
    ensure(third == b"255", FORM)?;
    Ok((size, samples))
}

/// The bytes before the first line end, and those after it.
pub fn split_at_line_end(input: &[u8]) -> Result<(&[u8], &[u8]), Refusal> {
    let place = input.iter().position(|byte| *byte == b'\n').ok_or(FORM)?;
    Ok((&input[..place], &input[place + 1..]))
}

/// The kind that the first line names.
fn read_magic(line: &[u8]) -> Result<Kind, Refusal> {
    for kind in [Kind::Grey, Kind::Rgb] {
        if line == magic(kind).as_bytes() {
            return Ok(kind);
        }
    }
    Err(FORM)
}

/// Writes a picture with its header.
pub fn write_netpbm(size: Size, samples: &[u8]) -> Vec<u8> {
    let header = format!(
        "{}\n{} {}\n255\n",
        magic(size.kind),
        size.width,
        size.height
    );
    let mut picture = header.into_bytes();
    picture.extend_from_slice(samples);
    picture
}
