//! A row at a width, by its row of the map.

use super::sides::{Compared, Sides};
use crate::contents::samples;
use crate::difference::Difference;
use crate::faults::Faults;
use crate::library::{self, Answer};
use crate::pictures::{self, byte_count, channels, NamedSize};
use crate::random::Random;
use crate::ranges;
use crate::spaces::{space, Lent};
use reference::Size;

/// One round in so many has the largest rows.
const RARITY: u64 = 4;

/// What showing a row is given. The size has one row.
struct Case {
    size: NamedSize,
    wanted: usize,
    buffers: Buffers,
}

/// All lent buffers.
#[derive(Clone, PartialEq)]
struct Buffers {
    samples: Lent<u8>,
    numbers: Lent<u16>,
    out: Lent<u8>,
}

pub fn compare(random: &mut Random, turn: u64) -> Result<u64, Difference> {
    let case = Case::of_turn(random, turn);
    case.compare("reference", by_reference, by_library)
}

fn by_reference(case: &Case, buffers: &mut Buffers) -> Answer {
    // The reference has no unknown kind, which is refused by 1.
    let Some(Size { kind, .. }) = case.size.known() else {
        return Answer::refused(1);
    };
    let (samples, numbers) = (buffers.samples.part(), buffers.numbers.part());
    match reference::row_at(samples, kind, numbers, case.wanted, buffers.out.part_mut()) {
        Ok(length) => Answer::served(length as u64),
        Err(number) => Answer::refused(u64::from(number)),
    }
}

fn by_library(case: &Case, buffers: &mut Buffers) -> Answer {
    library::row_at(
        buffers.samples.part_mut(),
        case.size.kind,
        buffers.numbers.part_mut(),
        case.wanted,
        buffers.out.part_mut(),
    )
}

/// Numbers of a row: those of a map, each of 1 to the depth once, or any.
fn numbers(random: &mut Random, width: usize, depth: usize) -> Vec<u16> {
    if random.one_in(4) {
        let most = random.pick(&[1, width, 2 * width, 65_535]);
        return (0..width).map(|_| random.between(0, most) as u16).collect();
    }
    let mut numbers = vec![0; width];
    for number in 1..=depth {
        let free = random.below(width + 1 - number);
        let mut places = (0..width).filter(|place| numbers[*place] == 0);
        let place = places.nth(free).expect("fewer numbers than places");
        numbers[place] = number as u16;
    }
    numbers
}

impl Case {
    fn of_turn(random: &mut Random, turn: u64) -> Case {
        let (size, faults) = pictures::start(random, turn, RARITY);
        Case::from_size(random, Size { height: 1, ..size }, faults)
    }

    fn from_size(random: &mut Random, size: Size, faults: Faults) -> Case {
        let range = ranges::allowed(random, size, usize::MAX);
        let numbers = numbers(random, size.width, range.depth);
        let wanted = ranges::wanted(random, size.width, range, faults);
        let mut bytes = samples(random, size);
        let mut needed = [0; 2 * 3 * reference::LARGEST_SIDE];
        let room = reference::row_at(&bytes, size.kind, &numbers, wanted, &mut needed)
            .expect("a pixel is shown twice at most");
        let length = pictures::buffer_length(random, byte_count(size), 4 * size.width, faults);
        bytes.resize(length, random.byte());
        let mut named = NamedSize::of(size);
        if faults.strike(random, 12) {
            named.kind = pictures::unknown_number(random, 2);
        }
        Case {
            size: named,
            wanted,
            buffers: Buffers {
                samples: Lent::holding(random, &bytes),
                numbers: Lent::holding(random, &numbers),
                out: space(random, room.max(channels(size.kind)), faults),
            },
        }
    }
}

impl Compared<Answer> for Case {
    type Buffers = Buffers;

    fn lent(&self) -> &Buffers {
        &self.buffers
    }

    fn difference(&self, sides: Sides<Answer, Buffers>) -> Difference {
        let mut difference = Difference::new();
        difference.value("size", self.size);
        difference.value("wanted width", self.wanted);
        sides.answers(&mut difference);
        difference.buffer("samples", 0, sides.forms(|buffers| &buffers.samples));
        difference.buffer("numbers", 0, sides.forms(|buffers| &buffers.numbers));
        difference.buffer("out", 0, sides.forms(|buffers| &buffers.out));
        difference
    }
}

#[cfg(test)]
mod tests {
    use super::super::sides::Outcome;
    use super::*;
    use crate::pictures::ROUND;
    use std::cmp::Ordering;

    #[test]
    fn rows_are_shown_narrower_and_wider_by_maps_and_by_any_numbers() {
        let mut counts = [0; 4];
        for turn in 0..4 * ROUND {
            let case = Case::of_turn(&mut Random::of_case(1, turn), turn);
            let (size, answer) = (case.size, case.outcome(by_reference).answer);
            if answer.number != 0 {
                continue;
            }
            let pixels = answer.value as usize / channels(size.known().unwrap().kind);
            counts[match case.wanted.cmp(&size.width) {
                _ if pixels != case.wanted => 3,
                Ordering::Less => 0,
                Ordering::Equal => 1,
                Ordering::Greater => 2,
            }] += 1;
        }
        assert!(counts.iter().all(|count| *count > 30), "{counts:?}");
    }

    /// Whether an outcome altered so is told from what the reference gives.
    fn noticed(alter: fn(&mut Outcome<Answer, Buffers>)) -> bool {
        let case = Case::of_turn(&mut Random::new(1), 70);
        let outcome = case.outcome(by_reference);
        assert!(case.verdict("reference", &outcome, &outcome).is_ok());
        let mut altered = outcome.clone();
        alter(&mut altered);
        case.verdict("reference", &outcome, &altered).is_err()
    }

    #[test]
    fn every_altered_part_is_noticed() {
        assert!(noticed(|outcome| outcome.answer.number ^= 8));
        assert!(noticed(|outcome| outcome.answer.value += 1));
        assert!(noticed(|outcome| outcome.buffers.samples.part_mut()[0] ^= 1));
        assert!(noticed(|outcome| outcome.buffers.numbers.part_mut()[0] ^= 1));
        assert!(noticed(|outcome| outcome.buffers.out.part_mut()[0] ^= 1));
    }
}
