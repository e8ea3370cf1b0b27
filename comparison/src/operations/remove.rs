//! Object removal.

use super::sides::{Compared, Sides};
use super::work_bytes;
use crate::difference::Difference;
use crate::faults::Faults;
use crate::library::{self, Ended};
use crate::marks;
use crate::methods::{named_method, NamedMethod};
use crate::pictures::{self, row_bytes, NamedSize};
use crate::random::Random;
use crate::spaces::{space, Lent};
use reference::{Ending, Size};

/// One round in so many has the largest pictures.
const RARITY: u64 = 16;

/// The most pixels that all cuts of a case look at.
const MOST: usize = 400_000;

/// What object removal is given.
pub struct Case {
    size: NamedSize,
    pub method: NamedMethod,
    pub budget: u16,
    buffers: Buffers,
}

/// All lent buffers.
#[derive(Clone, PartialEq)]
pub struct Buffers {
    pub picture: Lent<u8>,
    pub marks: Lent<u8>,
    pub work: Lent<u8>,
}

pub fn compare(random: &mut Random, turn: u64) -> Result<u64, Difference> {
    let case = Case::of_turn(random, turn);
    case.compare("reference", by_reference, by_library)
}

fn by_reference(case: &Case, buffers: &mut Buffers) -> Ended {
    // The reference has no unknown kind or method, which is refused by 1.
    let Some((size, method)) = case.size.known_by(case.method) else {
        return Ended::refused(1);
    };
    let Buffers {
        picture,
        marks,
        work,
    } = buffers;
    let (picture, marks, work) = (picture.part_mut(), marks.part_mut(), work.part_mut());
    match reference::remove_object(picture, marks, size, method, case.budget, work) {
        Ok((ending, count)) => Ended::served(number_of(ending), u64::from(count)),
        Err(number) => Ended::refused(u64::from(number)),
    }
}

pub fn by_library(case: &Case, buffers: &mut Buffers) -> Ended {
    library::remove(
        buffers.picture.part_mut(),
        buffers.marks.part_mut(),
        case.size,
        case.method,
        case.budget,
        buffers.work.part_mut(),
    )
}

fn number_of(ending: Ending) -> u64 {
    match ending {
        Ending::Done => 1,
        Ending::Narrow => 2,
        Ending::Spent => 3,
        Ending::Blocked => 4,
    }
}

/// None, one, some, just as many as there can be, or far more. A large picture
/// gets a small budget.
fn drawn_budget(random: &mut Random, size: Size) -> u16 {
    let (width, most) = (size.width, MOST / (size.width * size.height));
    if width > most {
        return random.below(most + 1) as u16;
    }
    let any = random.number() as u16;
    let some = random.between(0, width) as u16;
    random.pick(&[0, 1, some, some, width as u16 - 1, any, 65535, 65535])
}

impl Case {
    fn of_turn(random: &mut Random, turn: u64) -> Case {
        let (size, faults) = pictures::start(random, turn, RARITY);
        Case::from_size(random, size, faults)
    }

    pub fn from_size(random: &mut Random, size: Size, faults: Faults) -> Case {
        let named = pictures::named_size(random, size, faults);
        Case {
            size: named,
            method: named_method(random, faults),
            budget: drawn_budget(random, size),
            buffers: Buffers {
                picture: pictures::picture(random, size, named, faults),
                marks: marks::each(random, size, faults),
                work: space(random, work_bytes(size), faults),
            },
        }
    }
}

impl Compared<Ended> for Case {
    type Buffers = Buffers;

    fn lent(&self) -> &Buffers {
        &self.buffers
    }

    fn difference(&self, sides: Sides<Ended, Buffers>) -> Difference {
        let mut difference = Difference::new();
        difference.value("size", self.size);
        difference.value("method", self.method);
        difference.value("budget", self.budget);
        sides.answers(&mut difference);
        let row_bytes = self.size.known().map_or(0, row_bytes);
        let picture = sides.forms(|buffers| &buffers.picture);
        difference.buffer("picture", row_bytes, picture);
        let marks = sides.forms(|buffers| &buffers.marks);
        difference.buffer("marks", self.size.width, marks);
        difference.buffer("work", 0, sides.forms(|buffers| &buffers.work));
        difference
    }
}

#[cfg(test)]
mod tests {
    use super::super::sides::Outcome;
    use super::*;
    use crate::pictures::ROUND;
    use reference::Kind;

    /// The cases of some rounds without the largest pictures, and what the
    /// reference answers.
    fn answered() -> Vec<(Case, Ended)> {
        let case = |turn| Case::of_turn(&mut Random::of_case(1, turn), turn);
        let cases = (ROUND..5 * ROUND).map(case);
        let answered = cases.map(|case| {
            let answer = case.outcome(by_reference).answer;
            (case, answer)
        });
        answered.collect()
    }

    #[test]
    fn every_ending_occurs_before_any_cut_and_after_some() {
        let answered = answered();
        for (name, ending) in [("done", 1), ("narrow", 2), ("spent", 3), ("blocked", 4)] {
            for (first, last) in [(0, 0), (1, 1), (2, 65535)] {
                let ended = |(_, ended): &&(Case, Ended)| {
                    (ended.number, ended.ending) == (0, ending)
                        && (first..=last).contains(&ended.count)
                };
                let count = answered.iter().filter(ended).count();
                assert!(count > 4, "{name} {first} to {last}: {count}");
            }
        }
    }

    #[test]
    fn every_edge_occurs() {
        let answered = answered();
        let served = answered.iter().filter(|(_, ended)| ended.number == 0);
        let edges: Vec<_> = served
            .map(|(case, ended)| (case.size, case.budget, *ended))
            .collect();
        for ending in 1..=3 {
            for budget in [0, 1, 65535] {
                let edge = |(_, b, ended): &(_, u16, Ended)| (*b, ended.ending) == (budget, ending);
                let expected = ending != 3 || budget != 65535;
                assert_eq!(edges.iter().any(edge), expected, "{budget} {ending}");
            }
        }
        for ending in 1..=3 {
            let low = |(size, _, ended): &(NamedSize, _, Ended)| {
                size.height == 1 && size.width > 1 && ended.ending == ending
            };
            assert!(edges.iter().any(low), "no height 1 with ending {ending}");
        }
        for ending in [1, 2] {
            let slim = |(size, _, ended): &(NamedSize, _, Ended)| {
                size.width == 1 && ended.ending == ending
            };
            assert!(edges.iter().any(slim), "no width 1 with ending {ending}");
        }
    }

    #[test]
    fn large_pictures_have_small_budgets() {
        let mut random = Random::new(1);
        let kind = Kind::Grey;
        let mut budgets = |width, height| -> Vec<u16> {
            let size = Size {
                width,
                height,
                kind,
            };
            (0..200).map(|_| drawn_budget(&mut random, size)).collect()
        };
        assert!(budgets(512, 512).iter().all(|budget| *budget <= 1));
        for budget in [0, 1, 3, 4, 65535] {
            assert!(budgets(5, 5).contains(&budget), "no budget {budget}");
        }
        assert!(budgets(512, 1).contains(&65535));
    }

    /// How many of 1, 2, 3, 5 and a work space too short would refuse the case
    /// if each was judged alone.
    fn faults(case: &Case, start: Size) -> usize {
        let (m, n) = (case.size.width, case.size.height);
        let faults = [
            case.size.known_by(case.method).is_none(),
            m == 0 || n == 0,
            m > 512 || n > 512,
            case.buffers.marks.part().iter().any(|mark| *mark > 2),
            case.buffers.work.part().len() < work_bytes(start),
        ];
        faults.iter().filter(|fault| **fault).count()
    }

    #[test]
    fn several_faults_are_frequent() {
        let several = (ROUND..5 * ROUND).filter(|turn| {
            let mut random = Random::of_case(1, *turn);
            let (size, strikes) = pictures::start(&mut random, *turn, RARITY);
            faults(&Case::from_size(&mut random, size, strikes), size) > 1
        });
        assert!(several.count() > ROUND as usize / 4);
    }

    /// Whether an outcome altered so is told from what the reference gives.
    fn noticed(alter: fn(&mut Outcome<Ended, Buffers>)) -> bool {
        let case = Case::of_turn(&mut Random::new(1), ROUND + 70);
        let outcome = case.outcome(by_reference);
        assert!(case.verdict("reference", &outcome, &outcome).is_ok());
        let mut altered = outcome.clone();
        alter(&mut altered);
        case.verdict("reference", &outcome, &altered).is_err()
    }

    fn last(lent: &mut Lent<u8>) -> &mut u8 {
        lent.part_mut().last_mut().unwrap()
    }

    #[test]
    fn every_altered_part_is_noticed() {
        assert!(noticed(|outcome| outcome.answer.number ^= 8));
        assert!(noticed(|outcome| outcome.answer.ending ^= 1));
        assert!(noticed(|outcome| outcome.answer.count += 1));
        assert!(noticed(|outcome| *last(&mut outcome.buffers.picture) ^= 1));
        assert!(noticed(|outcome| *last(&mut outcome.buffers.marks) ^= 1));
        assert!(noticed(|outcome| *last(&mut outcome.buffers.work) ^= 1));
    }
}
