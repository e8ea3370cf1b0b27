//! What checking, reading and showing a file share: the case and the verdict.

use super::sides::{Compared, Numbered, Sides};
use super::work_bytes;
use crate::damage::damaged;
use crate::difference::Difference;
use crate::faults::Faults;
use crate::library::FileAnswer;
use crate::methods::NamedMethod;
use crate::pictures::{self, byte_count, NamedSize, ROUND};
use crate::random::Random;
use crate::ranges::{self, Range};
use crate::spaces::{space, Lent, Place};
use crate::texts::Parts;
use reference::{FileInfo, Kind, Refusal, Size};

/// One round in so many has the largest pictures.
const RARITY: u64 = 16;

/// The most pixels that all seams of a case look at.
const MOST: usize = 400_000;

/// What an operation gives out of a file.
#[derive(Clone, Copy, PartialEq, Eq)]
pub enum Gives {
    Nothing,
    PictureAndMap,
    WidthShown,
}

/// What an operation on a file is given. The wanted width is for showing alone.
pub struct Case {
    pub wanted: usize,
    pub buffers: Buffers,
}

/// All lent buffers. An operation that has no use for one gets it empty.
#[derive(Clone, PartialEq)]
pub struct Buffers {
    pub file: Lent<u8>,
    pub out: Lent<u8>,
    pub map: Lent<u16>,
    pub work: Lent<u8>,
}

/// What the reference says of a file.
pub fn file_answer(answer: Result<FileInfo, Refusal>) -> FileAnswer {
    match answer {
        Ok(FileInfo {
            size,
            method,
            depth,
            growth,
        }) => {
            let (size, method) = (NamedSize::of(size), NamedMethod::of(method));
            FileAnswer::served(size, method, Range { depth, growth })
        }
        Err(number) => FileAnswer::refused(u64::from(number)),
    }
}

/// The size that a case starts from, and whether it may be damaged. In every
/// second round all cases may.
pub fn start(random: &mut Random, turn: u64) -> (Size, Faults) {
    let (size, faults) = pictures::start(random, turn, RARITY);
    if (turn / ROUND).is_multiple_of(2) {
        (size, faults)
    } else {
        (size, Faults::Maybe)
    }
}

/// A file and a wanted width, and whether what else a case needs may be damaged.
pub struct Drawn {
    pub text: Vec<u8>,
    pub wanted: usize,
    pub around: Faults,
}

impl Drawn {
    /// A file whose seams look at no more than so many pixels together. Of the
    /// damaged cases some have a sound file, and half an offered width and
    /// nothing else damaged.
    pub fn of(random: &mut Random, size: Size, most: usize, faults: Faults) -> Drawn {
        let range = ranges::allowed(random, size, most);
        let parts = Parts::drawn(random, size, range);
        let never = Faults::Never;
        let (in_file, around) = random.pick(&[
            (faults, never),
            (faults, never),
            (faults, faults),
            (never, faults),
        ]);
        let wanted = ranges::wanted(random, size.width, range, around);
        let text = match in_file {
            Faults::Never => parts.text(),
            Faults::Maybe => damaged(random, parts),
        };
        Drawn {
            text,
            wanted,
            around,
        }
    }
}

impl Case {
    /// The first turn has full depth at 480 by 320.
    pub fn of_turn(random: &mut Random, turn: u64, gives: Gives) -> Case {
        if turn == 0 {
            let size = Size {
                width: 480,
                height: 320,
                kind: random.pick(&[Kind::Grey, Kind::Rgb]),
            };
            let parts = Parts::drawn(random, size, ranges::whole(480));
            return Case::of_file(random, &parts, 176, gives);
        }
        let (size, faults) = start(random, turn);
        Case::from_size(random, size, gives, faults)
    }

    fn from_size(random: &mut Random, size: Size, gives: Gives, faults: Faults) -> Case {
        let Drawn {
            text,
            wanted,
            around,
        } = Drawn::of(random, size, MOST, faults);
        Case::from_text(random, &text, size, wanted, gives, around)
    }

    /// A sound file with enough space.
    pub fn of_file(random: &mut Random, parts: &Parts, wanted: usize, gives: Gives) -> Case {
        let text = parts.text();
        Case::from_text(random, &text, parts.size, wanted, gives, Faults::Never)
    }

    /// The spaces are for the size and, as far as it is a width, the wanted
    /// width.
    fn from_text(
        random: &mut Random,
        text: &[u8],
        size: Size,
        wanted: usize,
        gives: Gives,
        faults: Faults,
    ) -> Case {
        let shown = Size {
            width: wanted.min(2 * size.width),
            ..size
        };
        let (bytes, places) = match gives {
            Gives::Nothing => (0, 0),
            Gives::PictureAndMap => (byte_count(size), size.width * size.height),
            Gives::WidthShown => (byte_count(shown), 0),
        };
        Case {
            wanted,
            buffers: Buffers {
                file: Lent::holding(random, text),
                out: space_or_none(random, bytes, faults),
                map: space_or_none(random, places, faults),
                work: space(random, work_bytes(size), faults),
            },
        }
    }
}

impl<A: Numbered> Compared<A> for Case {
    type Buffers = Buffers;

    fn lent(&self) -> &Buffers {
        &self.buffers
    }

    fn difference(&self, sides: Sides<A, Buffers>) -> Difference {
        let mut difference = Difference::new();
        difference.value("wanted width", self.wanted);
        sides.answers(&mut difference);
        difference.lines("file", self.buffers.file.part());
        difference.buffer("file", 0, sides.forms(|buffers| &buffers.file));
        difference.buffer("out", 0, sides.forms(|buffers| &buffers.out));
        difference.buffer("map", 0, sides.forms(|buffers| &buffers.map));
        difference.buffer("work", 0, sides.forms(|buffers| &buffers.work));
        difference
    }
}

/// A space for so many places, or an empty one where none is needed.
fn space_or_none<T: Place>(random: &mut Random, needed: usize, faults: Faults) -> Lent<T> {
    if needed == 0 {
        Lent::holding(random, &[])
    } else {
        space(random, needed, faults)
    }
}

#[cfg(test)]
mod tests {
    use super::super::sides::Outcome;
    use super::*;

    fn case(turn: u64, gives: Gives) -> Case {
        Case::of_turn(&mut Random::of_case(1, turn), turn, gives)
    }

    /// What checking answers with enough work space.
    fn number(file: &[u8]) -> Refusal {
        let mut work = vec![0; 32 * 512 * 512];
        reference::check(file, &mut work).err().unwrap_or(0)
    }

    #[test]
    fn short_spaces_come_alone_and_with_a_bad_map() {
        let (mut alone, mut with_map) = ([0; 3], 0);
        for turn in ROUND..17 * ROUND {
            let mut random = Random::of_case(1, turn);
            let (size, faults) = pictures::start(&mut random, turn, RARITY);
            let case = Case::from_size(&mut random, size, Gives::PictureAndMap, faults);
            let Buffers {
                file,
                out,
                map,
                work,
            } = &case.buffers;
            let short = [
                out.part().len() < byte_count(size),
                map.part().len() < size.width * size.height,
                work.part().len() < work_bytes(size),
            ];
            if short == [false; 3] {
                continue;
            }
            let number = number(file.part());
            with_map += usize::from(number > 8);
            for place in 0..3 {
                let others = (0..3).filter(|other| short[*other]).count();
                alone[place] += usize::from(number == 0 && short[place] && others == 1);
            }
        }
        assert!(with_map > 40, "{with_map}");
        assert!(alone.iter().all(|count| *count > 40), "{alone:?}");
    }

    /// The texts of a round.
    fn texts() -> Vec<String> {
        (2 * ROUND..3 * ROUND)
            .map(|turn| case(turn, Gives::Nothing).buffers.file)
            .map(|file| String::from_utf8_lossy(file.part()).into_owned())
            .collect()
    }

    #[test]
    fn files_name_all_energies() {
        let texts = texts();
        for word in ["edge", "flat", "forward"] {
            let line = format!("\n(energy {word})\n(row ");
            let accepted = |text: &&String| text.contains(&line) && number(text.as_bytes()) == 0;
            let count = texts.iter().filter(accepted).count();
            assert!(count > 40, "{word}: {count}");
        }
    }

    #[test]
    fn files_have_every_small_shape() {
        let heads = texts();
        for kind in ["grey", "rgb"] {
            for (width, height) in [(1, 1), (6, 1), (1, 6), (6, 6), (3, 5)] {
                let head = format!("(multi\n(size {width} {height} {kind})\n");
                assert!(heads.iter().any(|text| text.starts_with(&head)), "{head}");
            }
        }
    }

    /// Whether an outcome altered so is told from the other.
    fn noticed(alter: fn(&mut Outcome<FileAnswer, Buffers>)) -> bool {
        let case = case(2 * ROUND + 70, Gives::PictureAndMap);
        let outcome = case.outcome(|_, _| FileAnswer::refused(0));
        assert!(case.verdict("reference", &outcome, &outcome).is_ok());
        let mut altered = outcome.clone();
        alter(&mut altered);
        case.verdict("reference", &outcome, &altered).is_err()
    }

    fn flip_last(lent: &mut Lent<u8>) {
        *lent.part_mut().last_mut().unwrap() ^= 1;
    }

    #[test]
    fn every_altered_part_is_noticed() {
        assert!(noticed(|outcome| outcome.answer.number = 8));
        assert!(noticed(|outcome| outcome.answer.size.width = 1));
        assert!(noticed(|outcome| outcome.answer.size.height = 1));
        assert!(noticed(|outcome| outcome.answer.size.kind = 1));
        assert!(noticed(|outcome| outcome.answer.method.energy ^= 1));
        assert!(noticed(|outcome| outcome.answer.depth = 1));
        assert!(noticed(|outcome| outcome.answer.growth = 1));
        assert!(noticed(|outcome| flip_last(&mut outcome.buffers.file)));
        assert!(noticed(|outcome| flip_last(&mut outcome.buffers.out)));
        assert!(noticed(|outcome| outcome.buffers.map.part_mut()[0] ^= 1));
        assert!(noticed(|outcome| flip_last(&mut outcome.buffers.work)));
    }
}
