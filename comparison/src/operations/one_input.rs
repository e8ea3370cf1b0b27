//! What the programs share: an input, and the verdict on what is written for it.

use crate::difference::Difference;
use crate::pictures::ROUND;
use crate::programs::{number, Input, Program, Run};
use crate::random::Random;
use reference::Kind;

/// One input in so many comes in two pieces.
const PAUSES: usize = 50;

/// The places in a round of the inputs that are cut short.
const CUTS: std::ops::Range<u64> = 80..84;

/// A program and what it is given.
pub struct Case {
    pub program: Program,
    pub input: Input,
}

impl Case {
    /// Some inputs come in two pieces, cut at any place.
    pub fn of(random: &mut Random, program: Program, bytes: Vec<u8>) -> Case {
        let place = random.between(0, bytes.len());
        let pause = random.one_in(PAUSES).then_some(place);
        let input = Input { bytes, pause };
        Case { program, input }
    }

    /// Runs the program and compares what it writes with the reference.
    pub fn compare(&self) -> Result<u64, Difference> {
        let reference = self.program.by_reference(&self.input.bytes);
        self.verdict("reference", &reference, &self.program.run(&self.input))
    }

    /// The number that both sides wrote, or the difference. The other side is
    /// named in the report.
    pub fn verdict(&self, name: &str, other: &[u8], run: &Run) -> Result<u64, Difference> {
        if run.signal.is_none() && run.written == other {
            Ok(number(other))
        } else {
            Err(self.difference(name, other, run))
        }
    }

    fn difference(&self, name: &str, other: &[u8], run: &Run) -> Difference {
        let mut difference = Difference::new();
        difference.value("bytes of input", self.input.bytes.len());
        if let Some(place) = self.input.pause {
            difference.value("bytes ahead of a pause", place);
        }
        difference.lines("input", &self.input.bytes);
        difference.lines(&format!("output of the {name}"), other);
        difference.lines("output of the program", &run.written);
        if let Some(signal) = run.signal {
            difference.value("program ended by signal", signal);
        }
        let mut pairs = other.iter().zip(&run.written);
        let place = pairs.position(|(one, another)| one != another);
        let place = place.unwrap_or(other.len().min(run.written.len()));
        difference.value("outputs agree up to place", place);
        difference
    }
}

/// In some turns of every round a good input is cut short, so that in some
/// rounds every place is reached: how many bytes are left of the input that
/// is given for a kind.
pub fn cut_of_turn(turn: u64, whole: impl Fn(Kind) -> Vec<u8>) -> Option<Vec<u8>> {
    let (round, place) = (turn / ROUND, turn % ROUND);
    if !CUTS.contains(&place) {
        return None;
    }
    let mut bytes = whole([Kind::Grey, Kind::Rgb][(place % 2) as usize]);
    let count = 2 * round + (place - CUTS.start) / 2;
    bytes.truncate(count as usize % (bytes.len() + 1));
    Some(bytes)
}

#[cfg(test)]
mod tests {
    use super::*;

    /// Whether a run altered so is told from what the reference writes.
    fn noticed(program: Program, input: &[u8], alter: fn(&mut Run)) -> bool {
        let case = Case::of(&mut Random::new(1), program, input.to_vec());
        let reference = program.by_reference(input);
        let mut run = Run {
            written: reference.clone(),
            signal: None,
        };
        let verdict = |run: &Run| case.verdict("reference", &reference, run);
        assert!(verdict(&run).is_ok());
        alter(&mut run);
        verdict(&run).is_err()
    }

    #[test]
    fn every_altered_output_is_noticed() {
        let alterations: [fn(&mut Run); 6] = [
            |run| run.written[0] ^= 1,
            |run| *run.written.last_mut().unwrap() ^= 1,
            |run| run.written.push(b'\n'),
            |run| run.written.truncate(run.written.len() - 1),
            |run| run.written.clear(),
            |run| run.signal = Some(11),
        ];
        let picture = b"P5\n3 2\n255\nabcdef";
        for alter in alterations {
            assert!(noticed(Program::Seams, picture, alter));
            assert!(noticed(Program::Seams, b"", alter));
            assert!(noticed(Program::Fit, b"1\n", alter));
        }
    }

    #[test]
    fn every_place_is_cut() {
        let whole = |kind| match kind {
            Kind::Grey => b"grey".to_vec(),
            Kind::Rgb => b"rgb".to_vec(),
        };
        let cuts = (0..3 * ROUND).filter_map(|turn| cut_of_turn(turn, whole));
        let cuts: Vec<Vec<u8>> = cuts.collect();
        for cut in ["", "g", "gr", "gre", "grey", "r", "rg", "rgb"] {
            assert!(cuts.iter().any(|bytes| bytes == cut.as_bytes()), "{cut}");
        }
    }

    #[test]
    fn some_inputs_come_in_two_pieces() {
        let mut random = Random::new(2);
        let mut pause = || {
            let case = Case::of(&mut random, Program::Seams, vec![0; 20]);
            case.input.pause
        };
        let pauses: Vec<Option<usize>> = (0..2000).map(|_| pause()).collect();
        assert!(pauses.iter().flatten().count() > 20);
        assert!(pauses.iter().flatten().all(|place| *place <= 20));
    }
}
