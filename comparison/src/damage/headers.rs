//! Changes to the header of a Netpbm picture, and to how many samples follow.

use super::words::{broken, replace_number};
use crate::netpbm::{Netpbm, HEIGHT, LARGEST, MAGIC, WIDTH};
use crate::random::Random;

type Change = fn(&mut Random, &mut Netpbm);

const HEADER_CHANGES: [Change; 10] = [
    replace_magic,
    replace_side,
    replace_side,
    replace_side,
    exchange_sides,
    replace_largest,
    replace_gap,
    replace_gap,
    add_comment,
    drop_or_double_word,
];

const MAGICS: [&str; 14] = [
    "P1", "P2", "P3", "P4", "P5", "P5", "P6", "P6", "P7", "p5", "p6", "P", "P55", " P5",
];

const LARGEST_SAMPLES: [&str; 10] = [
    "254", "256", "65535", "0255", "1", "0", "255 ", " 255", "2550", "25",
];

const GAPS: [&str; 14] = [
    "", " ", "  ", "\n", "\n\n", "\t", "\r", "\r\n", " \n", "\n ", "\0", "\x0b", "\x0c", ",",
];

const COMMENTS: [&str; 4] = ["#\n", "# valley\n", " # valley\n", "\n# 3 2\n"];

pub fn change_header(random: &mut Random, picture: &mut Netpbm) {
    random.pick(&HEADER_CHANGES)(random, picture);
}

/// One sample too few or too many, or three; none at all; or as many as the
/// other kind would have: 4.
pub fn change_count(random: &mut Random, picture: &mut Netpbm) {
    let exact = picture.samples.len();
    let length = random.pick(&[
        exact.saturating_sub(1),
        exact + 1,
        0,
        exact / 3,
        exact * 3,
        exact + 3,
        exact.saturating_sub(3),
    ]);
    let fill = random.pick(&[0, b'\n', b' ', b'7', 255]);
    picture.samples.resize(length, fill);
}

/// Another kind, which mostly gives 4, or none: 1.
fn replace_magic(random: &mut Random, picture: &mut Netpbm) {
    picture.words[MAGIC] = random.pick(&MAGICS).to_string();
}

/// Width or height: 0 gives 2, one over 512 gives 3, another 4.
fn replace_side(random: &mut Random, picture: &mut Netpbm) {
    let named = [0, 0, 513, 512, 600, 65535];
    replace_number(random, &mut picture.words[WIDTH..=HEIGHT], &named);
}

/// Another shape with as many samples, so it is served.
fn exchange_sides(_: &mut Random, picture: &mut Netpbm) {
    picture.words.swap(WIDTH, HEIGHT);
}

/// A largest sample other than 255: 1.
fn replace_largest(random: &mut Random, picture: &mut Netpbm) {
    picture.words[LARGEST] = if random.one_in(3) {
        broken(random, "255")
    } else {
        random.pick(&LARGEST_SAMPLES).to_string()
    };
}

fn replace_gap(random: &mut Random, picture: &mut Netpbm) {
    let place = random.below(picture.gaps.len());
    picture.gaps[place] = random.pick(&GAPS).to_string();
}

/// A comment, as other programs write them: 1.
fn add_comment(random: &mut Random, picture: &mut Netpbm) {
    let place = random.below(picture.words.len());
    let comment = random.pick(&COMMENTS);
    if random.one_in(4) {
        picture.words[place].insert_str(0, comment);
    } else {
        picture.gaps[place] += comment;
    }
}

fn drop_or_double_word(random: &mut Random, picture: &mut Netpbm) {
    let place = random.below(picture.words.len());
    let (word, gap) = (&picture.words[place], &picture.gaps[place]);
    picture.words[place] = if random.one_in(2) {
        String::new()
    } else {
        format!("{word}{gap}{word}")
    };
}

#[cfg(test)]
mod tests {
    use super::super::tests::drawn as drawn_parts;
    use super::*;
    use crate::programs::number;
    use reference::seams_program;
    use std::collections::BTreeSet;

    fn drawn(random: &mut Random) -> Netpbm {
        let parts = drawn_parts(random);
        Netpbm::of(parts.size, &parts.samples)
    }

    #[test]
    fn each_change_gives_its_numbers() {
        for (name, change, numbers) in [
            ("magic", replace_magic as Change, &[0, 1, 4][..]),
            ("side", replace_side, &[1, 2, 3, 4]),
            ("sides", exchange_sides, &[0]),
            ("largest", replace_largest, &[1]),
            ("gap", replace_gap, &[0, 1]),
            ("comment", add_comment, &[1]),
            ("word", drop_or_double_word, &[1]),
            ("count", change_count, &[4]),
        ] {
            let mut random = Random::new(5);
            let mut answer_of = || {
                let mut picture = drawn(&mut random);
                change(&mut random, &mut picture);
                number(&seams_program(&picture.bytes()))
            };
            let answers: BTreeSet<u64> = (0..400).map(|_| answer_of()).collect();
            for number in numbers {
                assert!(answers.contains(number), "{name}: no {number}");
            }
        }
    }

    /// Headers of a picture of 3 by 2 after one change.
    const NAMED: [&str; 26] = [
        "P2\n3 2\n255\n",
        "P7\n3 2\n255\n",
        "p5\n3 2\n255\n",
        "P5\n0 2\n255\n",
        "P5\n3 513\n255\n",
        "P6\n65535 2\n255\n",
        "P6\n65536 2\n255\n",
        "P5\n03 2\n255\n",
        "P5\n3 2\n254\n",
        "P5\n3 2\n256\n",
        "P5\n3 2\n65535\n",
        "P5\n3 2\n0255\n",
        "P5\n3  2\n255\n",
        "P5\n3\t2\n255\n",
        "P5\n3\n2\n255\n",
        "P5\r\n3 2\n255\n",
        "P5\n3 2\n255\r\n",
        "P5\n3 2\n255",
        "P5\n3 2\n255\n\n",
        "P5\n\n3 2\n255\n",
        "P53 2\n255\n",
        "P5\n# valley\n3 2\n255\n",
        "# valley\nP5\n3 2\n255\n",
        "P5\n3 2\n255\n#\n",
        "P5\n3 3 2\n255\n",
        "P5\n3 2\n\n",
    ];

    #[test]
    fn named_headers_occur() {
        let mut random = Random::new(6);
        let mut headers = Vec::new();
        for _ in 0..20_000 {
            let mut picture = drawn(&mut random);
            picture.words[WIDTH] = String::from("3");
            picture.words[HEIGHT] = String::from("2");
            change_header(&mut random, &mut picture);
            picture.samples.clear();
            headers.push(String::from_utf8(picture.bytes()).unwrap());
        }
        let digits = format!("P5\n3 {}\n255\n", "9".repeat(100));
        for header in NAMED.into_iter().chain([digits.as_str()]) {
            assert!(headers.iter().any(|drawn| drawn == header), "{header:?}");
        }
    }

    #[test]
    fn counts_are_off_by_a_sample_and_by_a_kind() {
        let mut random = Random::new(7);
        let mut offs = BTreeSet::new();
        for _ in 0..400 {
            let picture = drawn(&mut random);
            let mut changed = picture.clone();
            change_count(&mut random, &mut changed);
            let (before, after) = (picture.samples.len(), changed.samples.len());
            offs.insert(after as isize - before as isize);
            assert_ne!(before, after);
        }
        assert!([-3, -1, 1, 3].iter().all(|off| offs.contains(off)));
    }
}
