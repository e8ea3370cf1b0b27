//! Building a file.

use super::sides::{Compared, Sides};
use super::work_bytes;
use crate::difference::Difference;
use crate::faults::Faults;
use crate::library::{self, Answer};
use crate::methods::{named_method, NamedMethod, EDGE};
use crate::pictures::{self, row_bytes, NamedSize};
use crate::random::Random;
use crate::ranges::{self, Range};
use crate::spaces::{space, Lent};
use crate::texts::text_length;
use reference::{Kind, Size};

/// One round in so many has the largest pictures.
const RARITY: u64 = 16;

/// The most pixels that all seams of a case look at.
const MOST: usize = 800_000;

/// What building is given.
pub struct Case {
    size: NamedSize,
    pub method: NamedMethod,
    pub range: Range,
    buffers: Buffers,
}

/// All lent buffers.
#[derive(Clone, PartialEq)]
pub struct Buffers {
    pub picture: Lent<u8>,
    pub out: Lent<u8>,
    pub work: Lent<u8>,
}

pub fn compare(random: &mut Random, turn: u64) -> Result<u64, Difference> {
    let case = Case::of_turn(random, turn);
    case.compare("reference", by_reference, by_library)
}

fn by_reference(case: &Case, buffers: &mut Buffers) -> Answer {
    // The reference has no unknown kind or method, which is refused by 1.
    let Some((size, method)) = case.size.known_by(case.method) else {
        return Answer::refused(1);
    };
    let Range { depth, growth } = case.range;
    let (picture, out) = (buffers.picture.part(), buffers.out.part_mut());
    let work = buffers.work.part_mut();
    match reference::build(picture, size, method, depth, growth, out, work) {
        Ok(length) => Answer::served(length as u64),
        Err(number) => Answer::refused(u64::from(number)),
    }
}

pub fn by_library(case: &Case, buffers: &mut Buffers) -> Answer {
    library::build(
        buffers.picture.part_mut(),
        case.size,
        case.method,
        case.range,
        buffers.out.part_mut(),
        buffers.work.part_mut(),
    )
}

impl Case {
    /// The first turns have full depth at 480 by 320, in both kinds.
    fn of_turn(random: &mut Random, turn: u64) -> Case {
        if let Some(kind) = [Kind::Grey, Kind::Rgb].get(turn as usize) {
            let size = Size {
                width: 480,
                height: 320,
                kind: *kind,
            };
            return Case::from_range(random, size, ranges::whole(480), Faults::Never);
        }
        let (size, faults) = pictures::start(random, turn, RARITY);
        Case::from_size(random, size, faults)
    }

    pub fn from_size(random: &mut Random, size: Size, faults: Faults) -> Case {
        let range = ranges::allowed(random, size, MOST);
        Case::from_range(random, size, range, faults)
    }

    fn from_range(random: &mut Random, size: Size, range: Range, faults: Faults) -> Case {
        let named = pictures::named_size(random, size, faults);
        let method = named_method(random, faults);
        let picture = pictures::picture(random, size, named, faults);
        // A picture of another length and an unknown method are refused ahead of
        // the space.
        let mut samples = picture.part().to_vec();
        samples.resize(pictures::byte_count(size), 0);
        let length = text_length(&samples, size, method.known().unwrap_or(EDGE), range);
        // Half of the damaged cases have enough space.
        let short = if random.one_in(2) {
            faults
        } else {
            Faults::Never
        };
        Case {
            size: named,
            method,
            range: ranges::named(random, range, size.width, faults),
            buffers: Buffers {
                picture,
                out: space(random, length, short),
                work: space(random, work_bytes(size), short),
            },
        }
    }
}

impl Compared<Answer> for Case {
    type Buffers = Buffers;

    fn lent(&self) -> &Buffers {
        &self.buffers
    }

    fn difference(&self, sides: Sides<Answer, Buffers>) -> Difference {
        let mut difference = Difference::new();
        difference.value("size", self.size);
        difference.value("method", self.method);
        difference.value("range", self.range);
        sides.answers(&mut difference);
        let row_bytes = self.size.known().map_or(0, row_bytes);
        let picture = sides.forms(|buffers| &buffers.picture);
        difference.buffer("picture", row_bytes, picture);
        difference.buffer("out", 0, sides.forms(|buffers| &buffers.out));
        difference.buffer("work", 0, sides.forms(|buffers| &buffers.work));
        difference
    }
}

#[cfg(test)]
mod tests {
    use super::super::sides::Outcome;
    use super::*;
    use crate::pictures::ROUND;

    #[test]
    fn the_first_turns_have_full_depth() {
        for turn in 0..2 {
            let case = Case::of_turn(&mut Random::of_case(1, turn), turn);
            assert_eq!((case.size.width, case.size.height), (480, 320));
            assert_eq!(u64::from(case.size.kind), turn);
            assert_eq!((case.range.depth, case.range.growth), (479, 240));
        }
    }

    /// For the output and the work space: too short alone, exact, longer.
    #[test]
    fn spaces_are_short_exact_and_longer() {
        let mut seen = [[0; 3]; 2];
        for turn in 2..4 * ROUND {
            let case = Case::of_turn(&mut Random::of_case(1, turn), turn);
            let Some((size, _)) = case.size.known_by(case.method) else {
                continue;
            };
            let Answer { number, value } = case.outcome(by_reference).answer;
            let (out, work) = (&case.buffers.out.part(), &case.buffers.work.part());
            if number == 0 {
                let longer = usize::from(out.len() as u64 > value);
                seen[0][1 + longer] += 1;
                let longer = usize::from(work.len() > work_bytes(size));
                seen[1][1 + longer] += 1;
            } else if number == 8 {
                seen[1][0] += usize::from(work.len() + 1 == work_bytes(size));
                seen[0][0] += usize::from(work.len() >= work_bytes(size));
            }
        }
        assert!(seen.iter().flatten().all(|count| *count > 5), "{seen:?}");
    }

    /// Whether an outcome altered so is told from what the reference gives.
    fn noticed(alter: fn(&mut Outcome<Answer, Buffers>)) -> bool {
        let case = Case::of_turn(&mut Random::new(1), ROUND + 70);
        let outcome = case.outcome(by_reference);
        assert!(case.verdict("reference", &outcome, &outcome).is_ok());
        let mut altered = outcome.clone();
        alter(&mut altered);
        case.verdict("reference", &outcome, &altered).is_err()
    }

    fn last(lent: &mut Lent<u8>) -> &mut u8 {
        lent.part_mut().last_mut().unwrap()
    }

    #[test]
    fn every_altered_part_is_noticed() {
        assert!(noticed(|outcome| outcome.answer.number ^= 8));
        assert!(noticed(|outcome| outcome.answer.value += 1));
        assert!(noticed(|outcome| *last(&mut outcome.buffers.picture) ^= 1));
        assert!(noticed(|outcome| *last(&mut outcome.buffers.out) ^= 1));
        assert!(noticed(|outcome| *last(&mut outcome.buffers.work) ^= 1));
    }
}
