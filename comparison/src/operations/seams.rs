//! The program `seams`: the file of a Netpbm picture.

use super::one_input::{cut_of_turn, Case};
use crate::contents::samples;
use crate::damage::{change_count, damaged_picture};
use crate::difference::Difference;
use crate::faults::Faults;
use crate::lengths;
use crate::limits;
use crate::netpbm::Netpbm;
use crate::pictures::{self, byte_count};
use crate::programs::Program;
use crate::random::Random;
use reference::{Kind, Size};

/// One round in so many has the largest pictures.
const RARITY: u64 = 16;

/// The samples of the worked picture: 3 by 2 in grey, 2 by 1 in rgb.
const WORKED: [u8; 6] = [10, 10, 40, 10, 50, 40];

pub fn compare(random: &mut Random, turn: u64) -> Result<u64, Difference> {
    let bytes = input_of_turn(random, turn);
    Case::of(random, Program::Seams, bytes).compare()
}

fn input_of_turn(random: &mut Random, turn: u64) -> Vec<u8> {
    if let Some(size) = limits::size_of_turn(turn) {
        return at_limit(random, size);
    }
    if let Some(bytes) = cut_of_turn(turn, worked) {
        return bytes;
    }
    let (size, faults) = pictures::start(random, turn, RARITY);
    let picture = Netpbm::of(size, &samples(random, size));
    match faults {
        Faults::Never => picture.bytes(),
        Faults::Maybe => damaged(random, picture),
    }
}

/// The worked picture, or one of its samples in rgb.
pub fn worked(kind: Kind) -> Vec<u8> {
    let (width, height) = match kind {
        Kind::Grey => (3, 2),
        Kind::Rgb => (2, 1),
    };
    let size = Size {
        width,
        height,
        kind,
    };
    Netpbm::of(size, &WORKED).bytes()
}

/// A picture of a size at the limits; in some the number of samples is wrong or
/// the input too long.
fn at_limit(random: &mut Random, size: Size) -> Vec<u8> {
    let samples = if byte_count(size) == 0 {
        Vec::new()
    } else {
        samples(random, size)
    };
    let mut picture = Netpbm::of(size, &samples);
    if random.one_in(3) {
        change_count(random, &mut picture);
    }
    let mut bytes = picture.bytes();
    if random.one_in(12) {
        lengths::fill(random, &mut bytes);
    }
    bytes
}

/// A picture that is damaged or goes on to the limit of the input's length and
/// beyond, or no picture at all.
fn damaged(random: &mut Random, picture: Netpbm) -> Vec<u8> {
    let good = picture.bytes();
    let mut bytes = damaged_picture(random, picture);
    match random.below(10) {
        0 => bytes = lengths::plain(random),
        1 => {
            bytes = good;
            lengths::fill(random, &mut bytes);
        }
        2 => lengths::fill(random, &mut bytes),
        _ => (),
    }
    bytes
}

#[cfg(test)]
mod tests {
    use super::*;
    use crate::pictures::ROUND;
    use crate::programs::{number, MOST_INPUT, MOST_PIXELS};

    fn inputs(rounds: u64) -> Vec<Vec<u8>> {
        let input = |turn| input_of_turn(&mut Random::of_case(1, turn), turn);
        (0..rounds * ROUND).map(input).collect()
    }

    #[test]
    fn named_inputs_occur() {
        let inputs = inputs(8);
        for head in [
            "P5\n1 1\n255\n",
            "P6\n6 6\n255\n",
            "P5\n32 32\n255\n",
            "P6\n33 32\n255\n",
            "P5\n512 2\n255\n",
            "P6\n513 1\n255\n",
            "P5\n512 512\n255\n",
        ] {
            let found = inputs
                .iter()
                .any(|input| input.starts_with(head.as_bytes()));
            assert!(found, "{head:?}");
        }
        assert!(inputs.iter().any(Vec::is_empty));
        let example = worked(Kind::Grey);
        for length in 0..16 {
            assert!(inputs.contains(&example[..length].to_vec()), "{length}");
        }
    }

    /// The sides that a good header of an input names, and how many bytes
    /// follow it.
    fn head(input: &[u8]) -> Option<(usize, usize, usize)> {
        let mut lines = input.splitn(4, |byte| *byte == b'\n');
        let magic = lines.next()?;
        let sides = String::from_utf8(lines.next()?.to_vec()).ok()?;
        let (width, height) = sides.split_once(' ')?;
        let (width, height) = (width.parse().ok()?, height.parse().ok()?);
        (magic == b"P5" && lines.next()? == b"255").then_some(())?;
        Some((width, height, lines.next()?.len()))
    }

    /// Cases where one fault hides another: 4 hides too many pixels, 8 of a
    /// long input hides 1, 2, 3 and 4, and exactly the limit hides nothing.
    #[test]
    fn several_faults_occur() {
        let (mut pixels, mut at, mut over) = (0, [0; 5], [0; 5]);
        for input in inputs(40) {
            let answer = number(&reference::seams_program(&input));
            if let Some((width, height, count)) = head(&input) {
                let many = width <= 512 && height <= 512 && width * height > MOST_PIXELS;
                pixels += usize::from(many && answer == 4 && count > MOST_PIXELS);
            }
            if input.len() == MOST_INPUT && answer < 5 {
                at[answer as usize] += 1;
            }
            if input.len() > MOST_INPUT {
                assert_eq!(answer, 8);
                let hidden = reference::seams_program(&input[..MOST_INPUT]);
                over[number(&hidden).min(4) as usize] += 1;
            }
        }
        assert!(pixels > 3, "{pixels}");
        assert!(at[1..].iter().all(|count| *count > 0), "{at:?}");
        assert!(over[1..].iter().all(|count| *count > 0), "{over:?}");
    }
}
