//! The program `fit`: a file shown at the width in the line ahead of it.

use super::chain;
use super::one_file::{start, Drawn};
use super::one_input::{cut_of_turn, Case};
use super::seams::worked;
use crate::damage::{damaged, damaged_map};
use crate::difference::Difference;
use crate::faults::Faults;
use crate::full_files::{accepted, lengthened};
use crate::lengths;
use crate::limits;
use crate::programs::{Program, MOST_INPUT, MOST_PIXELS};
use crate::random::Random;
use crate::ranges::{self, Range};
use crate::texts::Parts;
use crate::width_lines::line;
use reference::{Kind, Size};

/// The most pixels that all seams of a case look at.
const MOST: usize = 100_000;

/// The same for sizes at the limits: full depth at 512 by 2.
const MOST_AT_LIMIT: usize = 512 * 1_024;

pub fn compare(random: &mut Random, turn: u64) -> Result<u64, Difference> {
    if let Some(size) = chain::size_of_turn(turn) {
        return chain::compare(random, size);
    }
    let bytes = input_of_turn(random, turn);
    Case::of(random, Program::Fit, bytes).compare()
}

fn input_of_turn(random: &mut Random, turn: u64) -> Vec<u8> {
    if let Some(size) = limits::allowed_size_of_turn(turn) {
        return at_limit(random, size);
    }
    if let Some(bytes) = cut_of_turn(turn, worked_input) {
        return bytes;
    }
    let (size, faults) = start(random, turn);
    if faults.strike(random, 8) {
        return near_most_input(random, size);
    }
    let drawn = Drawn::of(random, size, MOST, faults);
    let line = line(random, drawn.wanted, drawn.around);
    [line, drawn.text].concat()
}

/// The file of the worked picture, or of one of its samples in rgb, at its own
/// width.
fn worked_input(kind: Kind) -> Vec<u8> {
    let width = match kind {
        Kind::Grey => "3\n",
        Kind::Rgb => "2\n",
    };
    let file = reference::seams_program(&worked(kind));
    [width.as_bytes(), &file].concat()
}

/// A file of a size at the limits, at widths around the most pixels and the
/// offered ones.
fn at_limit(random: &mut Random, size: Size) -> Vec<u8> {
    let range = ranges::allowed(random, size, MOST_AT_LIMIT);
    let wanted = wanted_at_limit(random, size, range);
    let parts = Parts::drawn(random, size, range);
    let text = match random.below(6) {
        0 | 1 => damaged_map(random, parts),
        2 => damaged(random, parts),
        _ => parts.text(),
    };
    [line(random, wanted, Faults::Never), text].concat()
}

fn wanted_at_limit(random: &mut Random, size: Size, range: Range) -> usize {
    // As wide as the most pixels admit at this height.
    let held = MOST_PIXELS / size.height;
    let (least, most) = (size.width - range.depth, size.width + range.growth);
    let any = random.between(least, most);
    random.pick(&[
        held,
        held + 1,
        least,
        most,
        any,
        size.width,
        least - 1,
        most + 1,
    ])
}

/// Inputs as long as may be, and longer ones: a file that is accepted, one with
/// a wrong count, one that goes on after its end, or no file at all.
fn near_most_input(random: &mut Random, size: Size) -> Vec<u8> {
    let Drawn { text, wanted, .. } = Drawn::of(random, size, MOST, Faults::Never);
    let length = random.pick(&[MOST_INPUT - 1, MOST_INPUT, MOST_INPUT + 1, MOST_INPUT + 2]);
    let good = line(random, wanted, Faults::Never);
    match random.below(5) {
        0 => lengths::plain(random),
        1 => {
            let mut input = [good, text].concat();
            lengths::fill(random, &mut input);
            input
        }
        2 => {
            let text = lengthened(&text, length - good.len());
            [good, text].concat()
        }
        _ => accepted_input(random, length),
    }
}

/// A width and an accepted file of this length together: refused by 7, or by 8
/// for its pixels. In some the last byte is broken, or the map.
fn accepted_input(random: &mut Random, length: usize) -> Vec<u8> {
    let width = random.pick(&["120\n", "120\n", "119\n", "0\n", "121\n"]);
    let file = accepted(random, length - width.len());
    let mut input = [width.as_bytes(), &file].concat();
    match random.below(6) {
        0 => input[length - 1] = random.pick(b" )\r\0"),
        // The first number of the last map row, after `(map `.
        1 => input[length - 5 - 2 * 119] = b'9',
        _ => (),
    }
    input
}

#[cfg(test)]
mod tests {
    use super::*;
    use crate::pictures::ROUND;
    use crate::programs::number;

    fn inputs(rounds: u64) -> impl Iterator<Item = Vec<u8>> {
        let input = |turn| input_of_turn(&mut Random::of_case(1, turn), turn);
        (0..rounds * ROUND).map(input)
    }

    /// The file after a line.
    fn file(input: &[u8]) -> &[u8] {
        let place = input.iter().position(|byte| *byte == b'\n');
        place.map_or(&[], |place| &input[place + 1..])
    }

    /// What checking answers with enough work space, and the pixels of a file
    /// that it accepts.
    fn checked(file: &[u8]) -> (u8, usize) {
        let mut work = vec![0; 32 * 512 * 512];
        match reference::check(file, &mut work) {
            Ok(info) => (0, info.size.width * info.size.height),
            Err(number) => (number, 0),
        }
    }

    /// 8 for pixels read and for pixels written, 8 ahead of a bad map, and 7
    /// ahead of all of these.
    #[test]
    fn several_faults_occur() {
        let (mut read, mut written, mut maps) = ([0; 2], 0, [0; 2]);
        for input in inputs(20).filter(|input| input.len() < 20_000) {
            let number = number(&reference::fit_program(&input));
            if number != 7 && number != 8 {
                continue;
            }
            let place = (number - 7) as usize;
            let (answer, pixels) = checked(file(&input));
            read[place] += usize::from(pixels > MOST_PIXELS);
            maps[place] += usize::from(answer >= 9);
            let held = (1..=MOST_PIXELS).contains(&pixels);
            written += usize::from(number == 8 && held);
        }
        assert!(read.iter().all(|count| *count > 3), "{read:?}");
        assert!(maps.iter().all(|count| *count > 3), "{maps:?}");
        assert!(written > 3, "{written}");
    }

    /// At the most input every number comes that a file of this length can
    /// give, and one byte more is always refused by 8.
    #[test]
    fn both_sides_of_the_most_input_occur() {
        let mut at = [0; 12];
        let mut over = [0; 12];
        for input in inputs(30) {
            let number = number(&reference::fit_program(&input)) as usize;
            if input.len() == MOST_INPUT {
                at[number] += 1;
            } else if input.len() == MOST_INPUT + 1 {
                over[number] += 1;
            }
        }
        for number in [1, 4, 7, 8] {
            assert!(at[number] > 0, "{number}: {at:?}");
        }
        assert!(over[8] > 10 && over.iter().sum::<i32>() == over[8]);
    }

    #[test]
    fn named_inputs_occur() {
        let inputs: Vec<Vec<u8>> = inputs(6).filter(|input| input.len() < 300).collect();
        assert!(inputs.iter().any(|input| file(input).is_empty()));
        assert!(inputs.iter().any(|input| input.starts_with(b"0\n(multi")));
        assert!(inputs.iter().any(|input| input.starts_with(b"(multi")));
        let cuts = (0..60 * ROUND).filter_map(|turn| cut_of_turn(turn, worked_input));
        let cuts: Vec<Vec<u8>> = cuts.collect();
        for kind in [Kind::Grey, Kind::Rgb] {
            let whole = worked_input(kind);
            for length in 0..=whole.len() {
                assert!(cuts.iter().any(|cut| cut == &whole[..length]), "{length}");
            }
        }
    }

    #[test]
    fn long_files_are_broken_in_their_last_byte_and_in_their_map() {
        let mut random = Random::new(1);
        let mut numbers = Vec::new();
        for _ in 0..60 {
            let input = accepted_input(&mut random, MOST_INPUT);
            assert_eq!(input.len(), MOST_INPUT);
            numbers.push(checked(file(&input)).0);
        }
        assert!([0, 1, 9].iter().all(|number| numbers.contains(number)));
    }
}
