//! What finding and cutting one seam share: the case and the verdict.

use super::sides::{self, Compared, Sides};
use super::work_bytes;
use crate::axes::{named_axis, seam_length, NamedAxis};
use crate::difference::Difference;
use crate::faults::Faults;
use crate::library::Answer;
use crate::marks;
use crate::methods::{named_method, NamedMethod};
use crate::pictures::{self, row_bytes, NamedSize};
use crate::random::Random;
use crate::spaces::{space, Lent};
use reference::{Axis, Method, Refusal, Size};

/// One round in so many has the largest pictures.
const RARITY: u64 = 4;

/// What finding or cutting one seam is given.
pub struct Case {
    pub size: NamedSize,
    pub method: NamedMethod,
    pub axis: NamedAxis,
    pub buffers: Buffers,
}

/// All lent buffers.
#[derive(Clone, PartialEq)]
pub struct Buffers {
    pub picture: Lent<u8>,
    pub marks: Lent<u8>,
    pub seam: Lent<u16>,
    pub work: Lent<u8>,
}

/// The lent parts of the buffers.
pub struct Parts<'a> {
    pub picture: &'a mut [u8],
    pub marks: &'a mut [u8],
    pub seam: &'a mut [u16],
    pub work: &'a mut [u8],
}

pub type Outcome = sides::Outcome<Answer, Buffers>;

impl Case {
    /// The case of a turn. Two turns together have each shape along both axes.
    pub fn of_turn(random: &mut Random, turn: u64, marks: marks::Draw) -> Case {
        let axis = [Axis::Vertical, Axis::Horizontal][(turn % 2) as usize];
        let (size, faults) = pictures::start(random, turn / 2, RARITY);
        Case::from_size(random, size, axis, marks, faults)
    }

    pub fn from_size(
        random: &mut Random,
        size: Size,
        axis: Axis,
        marks: marks::Draw,
        faults: Faults,
    ) -> Case {
        let named = pictures::named_size(random, size, faults);
        Case {
            size: named,
            method: named_method(random, faults),
            axis: named_axis(random, axis, faults),
            buffers: Buffers {
                picture: pictures::picture(random, size, named, faults),
                marks: marks(random, size, faults),
                seam: space(random, seam_length(size, axis), faults),
                work: space(random, work_bytes(size), faults),
            },
        }
    }

    /// Runs both sides and gives the number that both answered, or the
    /// difference. The other side is named in the report.
    pub fn compare(
        &self,
        name: &str,
        other: impl FnOnce(&Case, Parts) -> Answer,
        library: impl FnOnce(&Case, Parts) -> Answer,
    ) -> Result<u64, Difference> {
        let other = self.outcome(|parts| other(self, parts));
        let library = self.outcome(|parts| library(self, parts));
        self.verdict(name, &other, &library)
    }

    /// The outcome of a call that is given copies of the lent buffers.
    fn outcome(&self, call: impl FnOnce(Parts) -> Answer) -> Outcome {
        Outcome::of(&self.buffers, |buffers| {
            call(Parts {
                picture: buffers.picture.part_mut(),
                marks: buffers.marks.part_mut(),
                seam: buffers.seam.part_mut(),
                work: buffers.work.part_mut(),
            })
        })
    }

    /// What the reference answers by this call. An unknown kind, method or axis is
    /// refused by 1; the reference has no such kind, method or axis.
    pub fn known_answer(
        &self,
        call: impl FnOnce(Size, Method, Axis) -> Result<u64, Refusal>,
    ) -> Answer {
        let known = (self.size.known_by(self.method), self.axis.known());
        let (Some((size, method)), Some(axis)) = known else {
            return Answer::refused(1);
        };
        match call(size, method, axis) {
            Ok(cost) => Answer::served(cost),
            Err(number) => Answer::refused(u64::from(number)),
        }
    }
}

impl Compared<Answer> for Case {
    type Buffers = Buffers;

    fn lent(&self) -> &Buffers {
        &self.buffers
    }

    fn difference(&self, sides: Sides<Answer, Buffers>) -> Difference {
        let mut difference = Difference::new();
        difference.value("size", self.size);
        difference.value("method", self.method);
        difference.value("axis", self.axis);
        sides.answers(&mut difference);
        let row_bytes = self.size.known().map_or(0, row_bytes);
        let picture = sides.forms(|buffers| &buffers.picture);
        difference.buffer("picture", row_bytes, picture);
        let marks = sides.forms(|buffers| &buffers.marks);
        difference.buffer("marks", self.size.width, marks);
        difference.buffer("seam", 0, sides.forms(|buffers| &buffers.seam));
        difference.buffer("work", 0, sides.forms(|buffers| &buffers.work));
        difference
    }
}

#[cfg(test)]
mod tests {
    use super::*;
    use crate::pictures::{byte_count, ROUND};
    use reference::Kind;

    /// The turns of a round along both axes.
    const TURNS: u64 = 2 * ROUND;

    #[test]
    fn one_round_has_every_small_shape_and_the_largest_along_both_axes() {
        let case = |turn| Case::of_turn(&mut Random::of_case(1, turn), turn, marks::each);
        let small = (1..=6).flat_map(|width| (1..=6).map(move |height| (width, height)));
        let shapes: Vec<_> = small.chain([(512, 1), (1, 512), (512, 512)]).collect();
        let cases: Vec<Case> = (0..2 * 2 * shapes.len() as u64).map(case).collect();
        for kind in [Kind::Grey, Kind::Rgb] {
            for (width, height) in &shapes {
                let size = NamedSize::of(Size {
                    width: *width,
                    height: *height,
                    kind,
                });
                for axis in [NamedAxis(0), NamedAxis(1)] {
                    let tried = |case: &Case| case.size == size && case.axis == axis;
                    assert!(cases.iter().any(tried), "no {size}, axis {axis}");
                }
            }
        }
    }

    /// Which of 1, 2, 3, 4, 5 and 8 would refuse the case if each was judged
    /// alone; `start` is the size that the case started from, with so many
    /// marks a pixel.
    fn faults(case: &Case, start: Size, axis: Axis, density: usize) -> [bool; 6] {
        let (m, n) = (case.size.width, case.size.height);
        let allowed = (1..=512).contains(&m) && (1..=512).contains(&n);
        let length = |size| byte_count(size) == case.buffers.picture.part().len();
        let marks = case.buffers.marks.part();
        let pixels = start.width * start.height;
        let every_mark = marks.len() == density * pixels;
        let short_seam = case.buffers.seam.part().len() < seam_length(start, axis);
        let short_work = case.buffers.work.part().len() < 32 * pixels;
        [
            case.size.known_by(case.method).is_none() || case.axis.known().is_none(),
            m == 0 || n == 0,
            m > 512 || n > 512,
            !(allowed && every_mark && case.size.known().is_some_and(length)),
            marks.iter().any(|mark| *mark > 2),
            short_seam || short_work,
        ]
    }

    #[test]
    fn most_cases_are_sound_and_several_faults_are_frequent() {
        let draws: [marks::Draw; 2] = [marks::none, marks::each];
        for (density, draw) in draws.into_iter().enumerate() {
            let mut counts = [0; 7];
            for turn in 0..4 * TURNS {
                let mut random = Random::of_case(2, turn);
                let (size, strikes) = pictures::start(&mut random, TURNS - 1, RARITY);
                let axis = Axis::Horizontal;
                let case = Case::from_size(&mut random, size, axis, draw, strikes);
                let faults = faults(&case, size, axis, density);
                counts[faults.iter().filter(|fault| **fault).count()] += 1;
            }
            let count = 4 * TURNS as usize;
            assert!(counts[0] > count / 2, "{counts:?}");
            assert!(counts[1] > count / 20, "{counts:?}");
            assert!(counts[2..].iter().sum::<usize>() > count / 10, "{counts:?}");
        }
    }

    /// A case with all buffers longer than nothing whose outcome is altered.
    fn noticed(alter: fn(&mut Outcome)) -> bool {
        let case = Case::of_turn(&mut Random::new(1), 70, marks::each);
        let outcome = case.outcome(|_| Answer::served(0));
        assert!(case.verdict("reference", &outcome, &outcome).is_ok());
        let mut altered = outcome.clone();
        alter(&mut altered);
        case.verdict("reference", &outcome, &altered).is_err()
    }

    fn last<T: crate::spaces::Place>(lent: &mut Lent<T>) -> &mut T {
        lent.part_mut().last_mut().unwrap()
    }

    #[test]
    fn every_altered_part_is_noticed() {
        assert!(noticed(|outcome| outcome.answer.number = 8));
        assert!(noticed(|outcome| outcome.answer.value = 1));
        assert!(noticed(|outcome| *last(&mut outcome.buffers.picture) ^= 1));
        assert!(noticed(|outcome| *last(&mut outcome.buffers.marks) ^= 1));
        assert!(noticed(|outcome| *last(&mut outcome.buffers.seam) ^= 1));
        assert!(noticed(|outcome| *last(&mut outcome.buffers.work) ^= 1));
    }

    #[test]
    fn the_report_names_both_sides() {
        let case = Case::of_turn(&mut Random::new(1), 70, marks::each);
        let other = case.outcome(|_| Answer::served(4));
        let library = case.outcome(|parts| {
            parts.seam[0] ^= 1;
            Answer::served(5)
        });
        let difference = case.verdict("enumeration", &other, &library).unwrap_err();
        let text = difference.text(4000);
        assert!(text.contains("answer of the enumeration: number 0, value 4"));
        assert!(text.contains("answer of the library: number 0, value 5"));
        assert!(text.contains("marks: left unchanged by both"));
        assert!(text.contains("seam: first difference at place 0: enumeration"));
        assert!(text.contains("work: left unchanged by both"));
    }
}
