//! Netpbm pictures: P5 is grey, P6 is rgb, with one byte a sample.

use crate::picture::{Kind, Picture, Size};
use crate::refusal::Refusal;

/// The picture in the bytes of a Netpbm file. In the header any white space and
/// comments may stand between the numbers, as other tools write them.
///
/// # Errors
///
/// Refused by 1 where the header breaks its form or the largest sample isn't
/// 255, by 2 and 3 for the sides, and by 4 where there are more or fewer samples
/// than the size says.
///
/// ```
/// use multisize::{netpbm, Size};
///
/// let picture = netpbm::read(b"P5 # a comment\n2\t1\n255\n\x07\x09")?;
/// assert_eq!(picture.size(), Size::grey(2, 1));
/// assert_eq!(picture.samples(), [7, 9]);
/// # Ok::<(), multisize::Refusal>(())
/// ```
pub fn read(bytes: &[u8]) -> Result<Picture, Refusal> {
    let (size, samples) = parts(bytes).ok_or(Refusal::Form)?;
    Picture::new(size, samples.to_vec())
}

/// The size that the header of a Netpbm file says, also where [`read`] refuses it, and
/// how many bytes stand after the header.
///
/// ```
/// use multisize::{netpbm, Size};
///
/// let header = netpbm::header(b"P6 4000 3000 255\nabc");
/// assert_eq!(header, Some((Size::rgb(4000, 3000), 3)));
/// assert_eq!(netpbm::header(b"GIF89a"), None);
/// ```
pub fn header(bytes: &[u8]) -> Option<(Size, usize)> {
    let (size, samples) = parts(bytes)?;
    Some((size, samples.len()))
}

/// The bytes of a picture's Netpbm file, with the plainest header.
///
/// ```
/// use multisize::{netpbm, Picture, Size};
///
/// let picture = Picture::new(Size::rgb(1, 1), vec![1, 2, 3])?;
/// assert_eq!(netpbm::write(&picture), b"P6\n1 1\n255\n\x01\x02\x03");
/// # Ok::<(), multisize::Refusal>(())
/// ```
pub fn write(picture: &Picture) -> Vec<u8> {
    let Size {
        width,
        height,
        kind,
    } = picture.size();
    let magic = match kind {
        Kind::Grey => "P5",
        Kind::Rgb => "P6",
    };
    let mut bytes = format!("{magic}\n{width} {height}\n255\n").into_bytes();
    bytes.extend_from_slice(picture.samples());
    bytes
}

/// The size that a header gives, and the samples after it.
fn parts(bytes: &[u8]) -> Option<(Size, &[u8])> {
    let (magic, rest) = bytes.split_at_checked(2)?;
    let kind = match magic {
        b"P5" => Kind::Grey,
        b"P6" => Kind::Rgb,
        _ => return None,
    };
    let (width, rest) = number(gap(rest)?)?;
    let (height, rest) = number(gap(rest)?)?;
    let (largest, rest) = number(gap(rest)?)?;
    let (end, samples) = rest.split_first()?;
    let size = Size {
        width,
        height,
        kind,
    };
    (largest == 255 && white(*end)).then_some((size, samples))
}

/// Blank, tab, line feed, vertical tab, form feed or return.
fn white(byte: u8) -> bool {
    byte.is_ascii_whitespace() || byte == 11
}

/// What stands after white space and comments, of which there must be some. A
/// comment runs to the end of its line.
fn gap(bytes: &[u8]) -> Option<&[u8]> {
    let mut rest = bytes;
    loop {
        rest = match rest.split_first()? {
            (b'#', comment) => &comment[comment.iter().position(|byte| *byte == b'\n')?..],
            (byte, after) if white(*byte) => after,
            _ => break,
        };
    }
    (rest.len() < bytes.len()).then_some(rest)
}

/// A number of 0 to 65535 without leading zeros, and what stands after it.
fn number(bytes: &[u8]) -> Option<(usize, &[u8])> {
    let digits = bytes.iter().take_while(|byte| byte.is_ascii_digit());
    let (digits, rest) = bytes.split_at(digits.count());
    if digits.len() > 1 && digits[0] == b'0' {
        return None;
    }
    let value: u16 = std::str::from_utf8(digits).ok()?.parse().ok()?;
    Some((usize::from(value), rest))
}

#[cfg(test)]
mod tests {
    use super::*;

    fn size_read(bytes: &[u8]) -> Result<Size, Refusal> {
        read(bytes).map(|picture| picture.size())
    }

    #[test]
    fn what_is_written_is_read() {
        for (size, count) in [(Size::grey(3, 2), 6), (Size::rgb(3, 2), 18)] {
            let picture = Picture::new(size, (0..count).collect()).unwrap();
            assert_eq!(read(&write(&picture)), Ok(picture));
        }
        // Samples that look like white space or a comment belong to no header.
        let picture = Picture::new(Size::grey(3, 1), vec![10, 35, 32]).unwrap();
        assert_eq!(read(&write(&picture)), Ok(picture));
    }

    #[test]
    fn headers_of_other_tools_are_read() {
        let size = Ok(Size::grey(2, 1));
        assert_eq!(size_read(b"P5\n# made by hand\n2 1\n255\nab"), size);
        assert_eq!(size_read(b"P5\r\n2 1\r\n255\nab"), size);
        assert_eq!(size_read(b"P5#\n2# 3\n\t 1\n#\n#255\n255 ab"), size);
        assert_eq!(size_read(b"P5\x0b2\x0c1 255\tab"), size);
    }

    #[test]
    fn broken_headers_are_refused_by_1() {
        let broken: [&[u8]; 14] = [
            b"",
            b"P",
            b"P5",
            b"P2\n2 1\n255\n7 9",
            b"P52 1\n255\nab",
            b"P5\n2\n255\n",
            b"P5\n2 1\n255",
            b"P5\n2 1\n256\nab",
            b"P5\n2 1\n65535\nabcd",
            b"P5\n02 1\n255\nab",
            b"P5\n+2 1\n255\nab",
            b"P5\n65536 1\n255\nab",
            b"P5\n2 1\n255#\nab",
            b"P5\n# no end of line",
        ];
        for bytes in broken {
            assert_eq!(read(bytes), Err(Refusal::Form), "{bytes:?}");
        }
    }

    #[test]
    fn sides_and_samples_are_judged() {
        assert_eq!(size_read(b"P5\n0 1\n255\n"), Err(Refusal::Empty));
        assert_eq!(size_read(b"P5\n513 1\n255\n"), Err(Refusal::Large));
        assert_eq!(size_read(b"P5\n2 1\n255\na"), Err(Refusal::Length));
        assert_eq!(size_read(b"P5\n2 1\n255\nabc"), Err(Refusal::Length));
    }
}
