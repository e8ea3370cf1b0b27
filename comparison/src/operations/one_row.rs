//! What the operations on one row of a picture share: the case and the verdict.

use crate::difference::{Difference, Forms};
use crate::faults::Faults;
use crate::library::Answer;
use crate::methods::{named_method, NamedMethod};
use crate::pictures::{self, row_bytes, NamedSize};
use crate::random::Random;
use crate::spaces::{space, Lent, Place};
use reference::Size;

/// One round in so many has the largest pictures.
const RARITY: u64 = 4;

/// What an operation on one row is given, with a space or several for what it
/// answers. The method is for its energies and its steps alone.
pub struct Case<T, const SPACES: usize = 1> {
    pub size: NamedSize,
    pub method: NamedMethod,
    pub picture: Lent<u8>,
    pub row: usize,
    pub outs: [Lent<T>; SPACES],
}

/// What one side answered, and the buffers after it.
#[derive(Clone, PartialEq)]
pub struct Outcome<T, const SPACES: usize = 1> {
    pub answer: Answer,
    pub picture: Lent<u8>,
    pub outs: [Lent<T>; SPACES],
}

impl<T: Place, const SPACES: usize> Case<T, SPACES> {
    /// The case of a turn; `needed` gives the length of the answer in each space.
    pub fn of_turn(random: &mut Random, turn: u64, needed: fn(Size) -> usize) -> Self {
        let (size, faults) = pictures::start(random, turn, RARITY);
        Case::from_size(random, size, faults, needed(size))
    }

    fn from_size(random: &mut Random, size: Size, faults: Faults, needed: usize) -> Self {
        let named = pictures::named_size(random, size, faults);
        Case {
            size: named,
            method: named_method(random, faults),
            picture: pictures::picture(random, size, named, faults),
            row: pictures::row_number(random, size.height, faults),
            outs: [(); SPACES].map(|_| space(random, needed, faults)),
        }
    }

    /// The outcome of a call that is given copies of the lent buffers.
    pub fn outcome(
        &self,
        call: impl FnOnce(&mut [u8], [&mut [T]; SPACES]) -> Answer,
    ) -> Outcome<T, SPACES> {
        let mut picture = self.picture.clone();
        let mut outs = self.outs.clone();
        let answer = call(picture.part_mut(), outs.each_mut().map(Lent::part_mut));
        Outcome {
            answer,
            picture,
            outs,
        }
    }

    /// The number that both sides answered, or the difference.
    pub fn verdict(
        &self,
        reference: &Outcome<T, SPACES>,
        library: &Outcome<T, SPACES>,
    ) -> Result<u64, Difference> {
        if reference == library {
            Ok(reference.answer.number)
        } else {
            Err(self.difference(reference, library))
        }
    }

    fn difference(
        &self,
        reference: &Outcome<T, SPACES>,
        library: &Outcome<T, SPACES>,
    ) -> Difference {
        let sides = [("reference", reference), ("library", library)];
        let mut difference = Difference::new();
        difference.value("size", self.size);
        difference.value("method", self.method);
        difference.value("row number", self.row);
        for (side, outcome) in sides {
            difference.value(&format!("answer of the {side}"), outcome.answer);
        }
        let picture = Forms {
            lent: &self.picture,
            left: sides.map(|(side, outcome)| (side, &outcome.picture)),
        };
        let row_bytes = self.size.known().map_or(0, row_bytes);
        difference.buffer("picture", row_bytes, picture);
        for (place, lent) in self.outs.iter().enumerate() {
            let out = Forms {
                lent,
                left: sides.map(|(side, outcome)| (side, &outcome.outs[place])),
            };
            difference.buffer(&format!("space {}", place + 1), 0, out);
        }
        difference
    }
}

#[cfg(test)]
mod tests {
    use super::*;
    use crate::pictures::{byte_count, ROUND};

    /// How many of 2, 3, 4, 8 and an unknown kind or method would refuse the case
    /// if each was judged alone.
    fn faults<const SPACES: usize>(case: &Case<u32, SPACES>, width: usize) -> usize {
        let NamedSize {
            width: m,
            height: n,
            ..
        } = case.size;
        let allowed = (1..=512).contains(&m) && (1..=512).contains(&n);
        let length = |size| byte_count(size) == case.picture.part().len();
        let faults = [
            case.size.known_by(case.method).is_none(),
            m == 0 || n == 0,
            m > 512 || n > 512,
            case.row >= n || !(allowed && case.size.known().is_some_and(length)),
            case.outs.iter().any(|out| out.part().len() < width),
        ];
        faults.iter().filter(|fault| **fault).count()
    }

    #[test]
    fn most_cases_are_sound_and_several_faults_are_frequent() {
        let count = 8 * ROUND as usize;
        let mut counts = [0; 6];
        for turn in 0..count as u64 {
            let mut random = Random::of_case(1, turn);
            let (size, strikes) = pictures::start(&mut random, turn, RARITY);
            let case: Case<u32> = Case::from_size(&mut random, size, strikes, size.width);
            counts[faults(&case, size.width)] += 1;
        }
        assert!(counts[0] > count * 6 / 10, "{counts:?}");
        assert!(counts[1] > count / 20, "{counts:?}");
        assert!(counts[2..].iter().sum::<usize>() > count / 10, "{counts:?}");
    }

    /// A sound case whose library outcome is altered.
    fn noticed(alter: fn(&mut Outcome<u32>)) -> bool {
        let case: Case<u32> = Case::of_turn(&mut Random::new(1), 70, |size| size.width);
        let outcome = case.outcome(|_, _| Answer::served(0));
        assert!(case.verdict(&outcome, &outcome).is_ok());
        let mut altered = outcome.clone();
        alter(&mut altered);
        case.verdict(&outcome, &altered).is_err()
    }

    #[test]
    fn every_altered_part_is_noticed() {
        assert!(noticed(|outcome| outcome.answer.number = 8));
        assert!(noticed(|outcome| outcome.answer.value = 1));
        assert!(noticed(|outcome| outcome.picture.part_mut()[0] ^= 1));
        assert!(noticed(|outcome| *outcome.outs[0]
            .part_mut()
            .last_mut()
            .unwrap() ^= 1));
    }
}
