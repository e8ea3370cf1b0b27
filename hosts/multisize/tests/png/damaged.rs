//! Damaged files: each is refused or read, and none stops the program. Checksums are
//! also made right again, so that the damage reaches what stands after them.

use crate::maker::{crc, head, made, part, sorts, stream, Sort};
use multisize::{png, Picture, Size};

/// Small files: every sort, and some that are compressed.
fn files() -> Vec<Vec<u8>> {
    let small = sorts().into_iter().filter(|sort| sort.width == 9);
    let mut files: Vec<Vec<u8>> = small.map(made).collect();
    for size in [Size::grey(12, 9), Size::rgb(7, 6)] {
        let count = size.width * size.height * size.kind.channels();
        for step in [0, 3, 37] {
            let samples = (0..count).map(|at| (at * at / 9 * step) as u8).collect();
            files.push(png::write(&Picture::new(size, samples).unwrap()));
        }
    }
    files
}

/// The file with the checksums of its parts as they must be.
fn resealed(mut file: Vec<u8>) -> Vec<u8> {
    let mut at = 8;
    while let Some(length) = file.get(at..at + 4) {
        let length = u32::from_be_bytes(length.try_into().unwrap()) as usize;
        let end = at + 8 + length;
        let Some(named) = file.get(at + 4..end) else {
            break;
        };
        let sum = crc(named).to_be_bytes();
        let Some(place) = file.get_mut(end..end + 4) else {
            break;
        };
        place.copy_from_slice(&sum);
        at = end + 4;
    }
    file
}

/// Reads it, whatever comes of it: what is read has sides that are served.
fn tried(file: &[u8]) -> bool {
    let read = png::read(file);
    if let Ok(picture) = &read {
        let size = picture.size();
        assert!(size.width <= 512 && size.height <= 512);
    }
    read.is_ok()
}

#[test]
fn a_flipped_byte_is_seen() {
    for file in files() {
        for at in 0..file.len() {
            for flip in [1, 2, 4, 16, 128, 255] {
                let mut changed = file.clone();
                changed[at] ^= flip;
                assert!(!tried(&changed), "byte {at}");
            }
        }
    }
}

#[test]
fn a_flipped_byte_under_right_checksums_stops_nothing() {
    for file in files() {
        for at in 8..file.len() {
            for flip in [1, 2, 4, 8, 16, 32, 64, 128, 255] {
                let mut changed = file.clone();
                changed[at] ^= flip;
                tried(&resealed(changed));
            }
        }
    }
}

#[test]
fn many_flipped_bytes_stop_nothing() {
    let files = files();
    let mut state = 7u64;
    let mut random = |below: usize| {
        state = state
            .wrapping_mul(6364136223846793005)
            .wrapping_add(1442695040888963407);
        (state >> 33) as usize % below
    };
    for _ in 0..20_000 {
        let mut file = files[random(files.len())].clone();
        for _ in 0..1 + random(6) {
            let at = 8 + random(file.len() - 8);
            file[at] = random(256) as u8;
        }
        tried(&resealed(file));
    }
}

#[test]
fn a_file_cut_anywhere_is_refused() {
    for file in files() {
        for length in 0..file.len() {
            assert!(!tried(&file[..length]), "{length} bytes");
            // A byte is left out, or stands twice.
            let without = [&file[..length], &file[length + 1..]].concat();
            tried(&resealed(without));
            let twice = [&file[..length], &file[length.saturating_sub(1)..]].concat();
            tried(&resealed(twice));
        }
    }
}

/// A stream that unpacks to far more than the head says is refused, and so is a head
/// that says far more than is there.
#[test]
fn no_more_is_unpacked_than_the_head_says() {
    let flat = Picture::new(Size::grey(512, 512), vec![7; 512 * 512]).unwrap();
    let file = png::write(&flat);
    let with_sides = |width: u32, height: u32| {
        let mut changed = file.clone();
        changed[16..20].copy_from_slice(&width.to_be_bytes());
        changed[20..24].copy_from_slice(&height.to_be_bytes());
        png::read(&resealed(changed)).unwrap_err()
    };
    let long = png::Error::Damaged("it has more bytes than its size needs");
    assert_eq!(with_sides(1, 1), long);
    assert_eq!(with_sides(512, 511), long);
    for (width, height) in [(513, 512), (1 << 31, 1 << 31), (u32::MAX, 1)] {
        let sides = png::Error::Sides { width, height };
        assert_eq!(with_sides(width, height), sides);
    }
}

/// Parts in a wrong order, twice, missing, or unknown.
#[test]
fn parts_are_judged() {
    let sort = Sort {
        width: 2,
        height: 1,
        depth: 1,
        colour: 3,
        interlaced: false,
    };
    let (first, last) = (part(b"IHDR", &head(sort)), part(b"IEND", b""));
    let palette = part(b"PLTE", &[1, 2, 3, 4, 5, 6]);
    let pixels = part(b"IDAT", &stream(&[0, 0b0100_0000]));
    let read = |parts: &[&[u8]]| png::read(&[&png::SIGNATURE, parts.concat().as_slice()].concat());
    let samples = |parts: &[&[u8]]| read(parts).map(Picture::into_samples);
    assert_eq!(
        samples(&[&first, &palette, &pixels, &last]),
        Ok(vec![1, 2, 3, 4, 5, 6])
    );
    let (short, unknown) = (part(b"PLTE", &[1, 2, 3]), part(b"ABCD", b""));
    let (empty, odd) = (part(b"PLTE", &[]), part(b"PLTE", &[1, 2, 3, 4]));
    let large = part(b"PLTE", &[0; 9]);
    for parts in [
        &[&pixels, &palette, &last][..],
        &[&first, &pixels, &last],
        &[&first, &palette, &last],
        &[&first, &pixels, &palette, &last],
        &[&first, &palette, &palette, &pixels, &last],
        &[&first, &first, &palette, &pixels, &last],
        &[&first, &short, &pixels, &last],
        &[&first, &empty, &pixels, &last],
        &[&first, &odd, &pixels, &last],
        &[&first, &large, &pixels, &last],
        &[&first, &unknown, &palette, &pixels, &last],
    ] {
        let parts: Vec<&[u8]> = parts.iter().map(|part| part.as_slice()).collect();
        assert!(read(&parts).is_err());
    }
}
