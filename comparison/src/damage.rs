//! Files that are damaged: in what they say, in the words of their lines, or
//! in their bytes; and Netpbm pictures, in their headers, samples and bytes.

mod bytes;
mod headers;
mod maps;
mod words;

pub use headers::change_count;
pub use words::broken;

use crate::netpbm::Netpbm;
use crate::random::Random;
use crate::texts::{Parts, Words};

/// How many changes are made to the map, to the words and to the bytes.
const CHANGES: [[usize; 3]; 12] = [
    [1, 0, 0],
    [1, 0, 0],
    [1, 0, 0],
    [2, 0, 0],
    [0, 1, 0],
    [0, 1, 0],
    [0, 2, 0],
    [0, 0, 1],
    [0, 0, 1],
    [1, 1, 0],
    [0, 1, 1],
    [1, 1, 1],
];

/// The text of a file after some changes; few of them leave it good.
pub fn damaged(random: &mut Random, parts: Parts) -> Vec<u8> {
    let [maps, words, bytes] = random.pick(&CHANGES);
    let mut parts = parts;
    for _ in 0..maps {
        maps::change(random, &mut parts);
    }
    let mut lines = Words::of(&parts);
    for _ in 0..words {
        words::change(random, &mut lines);
    }
    let mut text = lines.text();
    for _ in 0..bytes {
        bytes::change(random, &mut text);
    }
    text
}

/// The text of a file after a change to its map or samples alone.
pub fn damaged_map(random: &mut Random, parts: Parts) -> Vec<u8> {
    let mut parts = parts;
    maps::change(random, &mut parts);
    parts.text()
}

/// How many changes are made to the header, to the number of samples and to the
/// bytes of a Netpbm picture.
const PICTURE_CHANGES: [[usize; 3]; 8] = [
    [1, 0, 0],
    [1, 0, 0],
    [2, 0, 0],
    [0, 1, 0],
    [1, 1, 0],
    [0, 0, 1],
    [1, 0, 1],
    [0, 1, 1],
];

/// A Netpbm picture after some changes; few of them leave it good.
pub fn damaged_picture(random: &mut Random, picture: Netpbm) -> Vec<u8> {
    let [headers, counts, bytes] = random.pick(&PICTURE_CHANGES);
    let mut picture = picture;
    for _ in 0..headers {
        headers::change_header(random, &mut picture);
    }
    for _ in 0..counts {
        headers::change_count(random, &mut picture);
    }
    let mut input = picture.bytes();
    for _ in 0..bytes {
        bytes::change(random, &mut input);
    }
    input
}

#[cfg(test)]
mod tests {
    use super::*;
    use crate::ranges;
    use reference::{Kind, Refusal, Size};
    use std::collections::BTreeSet;

    /// What checking answers, with enough work space; 0 where it accepts.
    pub fn answer(text: &[u8]) -> Refusal {
        let mut work = vec![0; 32 * 100];
        reference::check(text, &mut work).err().unwrap_or(0)
    }

    pub fn drawn(random: &mut Random) -> Parts {
        let size = Size {
            width: random.between(1, 6),
            height: random.between(1, 6),
            kind: random.pick(&[Kind::Grey, Kind::Rgb]),
        };
        let range = ranges::allowed(random, size, 1000);
        Parts::drawn(random, size, range)
    }

    /// The answers to many files after this change.
    pub fn answers(
        seed: u64,
        mut change: impl FnMut(&mut Random, Parts) -> Vec<u8>,
    ) -> BTreeSet<Refusal> {
        let mut random = Random::new(seed);
        let mut answer_of = || {
            let parts = drawn(&mut random);
            answer(&change(&mut random, parts))
        };
        (0..400).map(|_| answer_of()).collect()
    }

    #[test]
    fn every_answer_is_frequent() {
        let mut random = Random::new(1);
        let mut counts = [0; 12];
        for _ in 0..6000 {
            let parts = drawn(&mut random);
            let text = damaged(&mut random, parts);
            counts[usize::from(answer(&text))] += 1;
        }
        for number in [0, 1, 2, 3, 4, 6, 9, 10, 11] {
            assert!(counts[number] > 60, "{number}: {counts:?}");
        }
    }

    /// A form that is broken elsewhere hides a refused size or range.
    #[test]
    fn broken_forms_come_with_refused_sizes_and_ranges() {
        let mut random = Random::new(2);
        let mut hidden = [0; 7];
        for _ in 0..6000 {
            let mut words = Words::of(&drawn(&mut random));
            words::change(&mut random, &mut words);
            let mut text = words.text();
            let alone = usize::from(answer(&text)).min(6);
            bytes::change(&mut random, &mut text);
            hidden[alone] += usize::from(answer(&text) == 1);
        }
        for number in [2, 3, 4, 6] {
            assert!(hidden[number] > 50, "{number}: {hidden:?}");
        }
    }
}
