//! A reader of PNG, to hold the program's pictures to. It reads what RFC 1951 and
//! the PNG specification say, and judges every checksum.

use multisize::{Kind, Picture, Size};

/// The size and the samples of a PNG of 8 bits a sample, grey or rgb.
pub fn decoded(file: &[u8]) -> (Size, Vec<u8>) {
    let rest = file.strip_prefix(b"\x89PNG\r\n\x1a\n").expect("signature");
    let (head, rest) = chunk(rest, b"IHDR");
    let (data, rest) = chunk(rest, b"IDAT");
    assert_eq!(chunk(rest, b"IEND"), (&[][..], &[][..]));
    let side = |at: usize| u32::from_be_bytes(head[at..at + 4].try_into().unwrap()) as usize;
    let kind = match head[9] {
        0 => Kind::Grey,
        2 => Kind::Rgb,
        other => panic!("kind {other}"),
    };
    assert_eq!((head.len(), head[8], &head[10..]), (13, 8, &[0; 3][..]));
    let size = Size {
        width: side(0),
        height: side(4),
        kind,
    };
    (size, unfiltered(&unpacked(data), size))
}

/// The same as a picture that an operation takes.
pub fn picture(file: &[u8]) -> Picture {
    let (size, samples) = decoded(file);
    Picture::new(size, samples).unwrap()
}

/// A part of the file by its name, and what follows.
fn chunk<'a>(file: &'a [u8], name: &[u8; 4]) -> (&'a [u8], &'a [u8]) {
    let (length, rest) = file.split_at(4);
    let length = u32::from_be_bytes(length.try_into().unwrap()) as usize;
    let (named, rest) = rest.split_at(4 + length);
    let (sum, rest) = rest.split_at(4);
    assert_eq!(&named[..4], name);
    assert_eq!(crc(named).to_be_bytes(), sum);
    (&named[4..], rest)
}

/// CRC-32 bit by bit.
fn crc(bytes: &[u8]) -> u32 {
    let mut sum = !0u32;
    for byte in bytes {
        sum ^= u32::from(*byte);
        for _ in 0..8 {
            sum = (sum >> 1) ^ ((sum & 1) * 0xedb8_8320);
        }
    }
    !sum
}

/// The bytes of a zlib stream.
fn unpacked(stream: &[u8]) -> Vec<u8> {
    assert_eq!(stream[0], 0x78);
    assert_eq!(u16::from_be_bytes([stream[0], stream[1]]) % 31, 0);
    let (blocks, sum) = stream[2..].split_at(stream.len() - 6);
    let bytes = super::inflate::inflated(blocks);
    let (mut low, mut high) = (1u64, 0u64);
    for byte in &bytes {
        low = (low + u64::from(*byte)) % 65521;
        high = (high + low) % 65521;
    }
    assert_eq!(((high << 16 | low) as u32).to_be_bytes(), sum);
    bytes
}

/// The samples of filtered rows.
fn unfiltered(lines: &[u8], size: Size) -> Vec<u8> {
    let channels = size.kind.channels();
    let row = size.width * channels;
    assert_eq!(lines.len(), (row + 1) * size.height);
    let mut samples: Vec<u8> = Vec::new();
    for (at, line) in lines.chunks(row + 1).enumerate() {
        for (place, byte) in line[1..].iter().enumerate() {
            let here = at * row + place;
            let seen = |back: usize, inside: bool| {
                if inside {
                    i32::from(samples[here - back])
                } else {
                    0
                }
            };
            let left = seen(channels, place >= channels);
            let above = seen(row, at > 0);
            let corner = seen(row + channels, at > 0 && place >= channels);
            let guess = match line[0] {
                0 => 0,
                1 => left,
                2 => above,
                3 => (left + above) / 2,
                4 => paeth(left, above, corner),
                other => panic!("filter {other}"),
            };
            samples.push(byte.wrapping_add(guess as u8));
        }
    }
    samples
}

fn paeth(left: i32, above: i32, corner: i32) -> i32 {
    let aim = left + above - corner;
    let (a, b, c) = (
        (aim - left).abs(),
        (aim - above).abs(),
        (aim - corner).abs(),
    );
    if a <= b && a <= c {
        left
    } else if b <= c {
        above
    } else {
        corner
    }
}
