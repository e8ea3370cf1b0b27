//! Inputs of programs made longer, to the limit of their length and beyond.

use crate::programs::MOST_INPUT;
use crate::random::Random;
use crate::spaces::Place;

/// Both sides of the limit, and lengths far beyond it.
const LENGTHS: [usize; 8] = [
    MOST_INPUT - 1,
    MOST_INPUT,
    MOST_INPUT,
    MOST_INPUT + 1,
    MOST_INPUT + 1,
    MOST_INPUT + 2,
    2 * MOST_INPUT,
    300_000,
];

/// A length near the limit or beyond it.
pub fn length(random: &mut Random) -> usize {
    random.pick(&LENGTHS)
}

/// Makes the input as long as drawn, if it is shorter: one byte again and
/// again, or any bytes.
pub fn fill(random: &mut Random, input: &mut Vec<u8>) {
    let length = length(random);
    if input.len() < length {
        let more = length - input.len();
        let some = random.pick(b"\0 \n\n17)");
        let any = u8::drawn(random, more);
        let same = vec![some; more];
        input.extend(if random.one_in(3) { any } else { same });
    }
}

/// An input that is nothing but one byte again and again, or empty.
pub fn plain(random: &mut Random) -> Vec<u8> {
    let long = length(random);
    let length = random.pick(&[0, 0, 1, 2, 100, long, long]);
    vec![random.pick(b"\0 \n1P("); length]
}

#[cfg(test)]
mod tests {
    use super::*;

    #[test]
    fn both_sides_of_the_limit_occur() {
        let mut random = Random::new(1);
        let mut filled = Vec::new();
        for _ in 0..300 {
            let mut input = b"some".to_vec();
            fill(&mut random, &mut input);
            assert!(input.starts_with(b"some"));
            filled.push(input.len());
        }
        let plain: Vec<usize> = (0..300).map(|_| plain(&mut random).len()).collect();
        for length in [65_535, 65_536, 65_537, 65_538, 131_072] {
            assert!(filled.contains(&length), "{length}");
            assert!(plain.contains(&length), "{length}");
        }
        assert!(plain.contains(&0));
    }

    #[test]
    fn longer_inputs_are_left_alone() {
        let mut input = vec![7; 400_000];
        fill(&mut Random::new(1), &mut input);
        assert_eq!(input.len(), 400_000);
    }
}
