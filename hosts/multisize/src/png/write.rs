//! A PNG written: grey and rgb with 8 bits a sample.

use super::{checksums, deflate, filters, SIGNATURE};
use crate::picture::{Picture, Size};

/// The bytes of a picture's PNG.
///
/// ```
/// use multisize::{png, Picture, Size};
///
/// let picture = Picture::new(Size::rgb(1, 1), vec![1, 2, 3])?;
/// assert!(png::write(&picture).starts_with(&png::SIGNATURE));
/// # Ok::<(), multisize::Refusal>(())
/// ```
pub fn write(picture: &Picture) -> Vec<u8> {
    let size = picture.size();
    let row = size.width * size.kind.channels();
    let lines = filters::filtered(picture.samples(), row, size.kind.channels());
    let mut bytes = SIGNATURE.to_vec();
    put_chunk(&mut bytes, b"IHDR", &header(size));
    put_chunk(&mut bytes, b"IDAT", &deflate::zlib(&lines));
    put_chunk(&mut bytes, b"IEND", &[]);
    bytes
}

/// The sides, 8 bits a sample, the kind, and the one way there is to compress, to
/// filter, and to order the rows without interlacing.
fn header(size: Size) -> Vec<u8> {
    // PNG's colour types: three samples a pixel, or one.
    let colour = if size.kind.channels() == 3 { 2 } else { 0 };
    let sides = [side(size.width), side(size.height)];
    [sides.concat().as_slice(), &[8, colour, 0, 0, 0]].concat()
}

/// A side as four bytes, the highest first. A picture shown is at most 768 wide.
fn side(length: usize) -> [u8; 4] {
    (length as u32).to_be_bytes()
}

/// Any bytes compressed as a PNG's are, a zlib stream.
pub fn zlib(bytes: &[u8]) -> Vec<u8> {
    deflate::zlib(bytes)
}

/// Puts a part of the file: its length, its name and its bytes, and their checksum.
fn put_chunk(file: &mut Vec<u8>, name: &[u8; 4], bytes: &[u8]) {
    file.extend((bytes.len() as u32).to_be_bytes());
    let start = file.len();
    file.extend(name);
    file.extend(bytes);
    let checksum = checksums::crc(&file[start..]);
    file.extend(checksum.to_be_bytes());
}

#[cfg(test)]
mod tests {
    use super::*;

    #[test]
    fn a_file_has_its_three_parts() {
        let picture = Picture::new(Size::rgb(2, 1), vec![1, 2, 3, 4, 5, 6]).unwrap();
        let file = write(&picture);
        assert!(file.starts_with(&SIGNATURE));
        assert_eq!(&file[8..16], b"\0\0\0\x0dIHDR");
        assert_eq!(&file[16..29], b"\0\0\0\x02\0\0\0\x01\x08\x02\0\0\0");
        assert_eq!(&file[37..41], b"IDAT");
        assert!(file.ends_with(b"\0\0\0\0IEND\xae\x42\x60\x82"));
    }

    #[test]
    fn a_flat_picture_is_short_and_noise_is_hardly_longer_than_itself() {
        let flat = Picture::new(Size::grey(512, 512), vec![7; 512 * 512]).unwrap();
        assert!(write(&flat).len() < 1500);
        let mut state = 1u32;
        let mut noise = || {
            state = state.wrapping_mul(1664525).wrapping_add(1013904223);
            (state >> 24) as u8
        };
        let samples = (0..300 * 200).map(|_| noise()).collect();
        let noisy = Picture::new(Size::grey(300, 200), samples).unwrap();
        assert!(write(&noisy).len() < 61_500);
    }
}
