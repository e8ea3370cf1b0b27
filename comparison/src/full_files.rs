//! Files of good form and a given length, so that only the limit of a program's
//! input keeps one of them from being read.

use crate::methods;
use crate::random::Random;
use crate::ranges::Range;
use crate::texts::Parts;
use reference::{Kind, Size};

/// With samples of three digits the file is longer than the most input, with
/// samples of one digit shorter.
const SIZE: Size = Size {
    width: 120,
    height: 90,
    kind: Kind::Grey,
};

/// A file of just this length, near the most input. It offers width 120 alone,
/// and it is accepted.
pub fn accepted(random: &mut Random, length: usize) -> Vec<u8> {
    let pixels = SIZE.width * SIZE.height;
    let mut parts = Parts {
        size: SIZE,
        method: methods::drawn(random),
        range: Range {
            depth: 0,
            growth: 0,
        },
        samples: (0..pixels)
            .map(|_| random.between(100, 255) as u8)
            .collect(),
        map: vec![vec![0; SIZE.width]; SIZE.height],
    };
    // Each of these samples loses two digits, and one more may lose one.
    let over = parts.text().len() - length;
    let (first, rest) = parts.samples.split_at_mut(over / 2);
    for sample in first {
        *sample %= 10;
    }
    if over % 2 == 1 {
        rest[0] = random.between(10, 99) as u8;
    }
    parts.text()
}

/// The file with numbers added to its last map row until it has this length:
/// its form stays good. A longer file is left alone.
pub fn lengthened(file: &[u8], length: usize) -> Vec<u8> {
    let more = length.saturating_sub(file.len());
    let Some(row) = file.strip_suffix(b")\n)\n").filter(|_| more > 1) else {
        return file.to_vec();
    };
    let mut text = row.to_vec();
    text.extend_from_slice(&b" 1".repeat(more / 2));
    if more % 2 == 1 {
        text.push(b'1');
    }
    text.extend_from_slice(b")\n)\n");
    text
}

#[cfg(test)]
mod tests {
    use super::*;

    fn answer(file: &[u8]) -> u8 {
        let mut work = vec![0; 32 * 10_800];
        reference::check(file, &mut work).err().unwrap_or(0)
    }

    #[test]
    fn files_of_every_length_near_the_limit() {
        let mut random = Random::new(1);
        for length in 65_400..65_600 {
            let file = accepted(&mut random, length);
            assert_eq!(file.len(), length);
            assert_eq!(answer(&file), 0);
        }
    }

    #[test]
    fn lengthened_files_have_a_good_form_and_a_wrong_count() {
        let file = b"(multi\n(size 1 1 rgb)\n(range 0 0)\n(energy flat)\n\
            (row (1 2 3))\n(map 0)\n)\n";
        for length in [65_534, 65_535] {
            let longer = lengthened(file, length);
            assert_eq!(longer.len(), length);
            assert_eq!(answer(&longer), 4);
        }
        assert_eq!(lengthened(file, 10), file);
        assert_eq!(lengthened(b"", 10), b"");
    }
}
