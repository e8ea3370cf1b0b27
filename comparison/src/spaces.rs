//! Buffers to lend: pictures, marks, output and work spaces.

use crate::faults::Faults;
use crate::random::Random;
use std::fmt::Display;

/// The most places before the lent part, and the number after it.
const GUARD: usize = 8;

/// What stands in one place of a buffer.
pub trait Place: Copy + PartialEq + Display {
    fn drawn(random: &mut Random, count: usize) -> Vec<Self>;
}

impl Place for u8 {
    /// Eight bytes from each number, as work spaces are long.
    fn drawn(random: &mut Random, count: usize) -> Vec<u8> {
        let mut bytes = vec![0; count];
        for some in bytes.chunks_mut(8) {
            some.copy_from_slice(&random.number().to_le_bytes()[..some.len()]);
        }
        bytes
    }
}

impl Place for u16 {
    fn drawn(random: &mut Random, count: usize) -> Vec<u16> {
        (0..count).map(|_| random.number() as u16).collect()
    }
}

impl Place for u32 {
    fn drawn(random: &mut Random, count: usize) -> Vec<u32> {
        (0..count).map(|_| random.number() as u32).collect()
    }
}

/// A buffer of which a part is lent. The places around that part are compared
/// too, so that a write outside of it is seen.
#[derive(Clone, Debug, PartialEq)]
pub struct Lent<T> {
    places: Vec<T>,
    start: usize,
    length: usize,
}

impl<T: Place> Lent<T> {
    /// The contents as the lent part, with drawn values around it.
    pub fn holding(random: &mut Random, contents: &[T]) -> Lent<T> {
        let start = random.between(1, GUARD);
        let mut places = T::drawn(random, start);
        places.extend_from_slice(contents);
        places.extend(T::drawn(random, GUARD));
        Lent {
            places,
            start,
            length: contents.len(),
        }
    }

    /// Drawn values as the lent part and around it.
    fn drawn(random: &mut Random, length: usize) -> Lent<T> {
        let start = random.between(1, GUARD);
        Lent {
            places: T::drawn(random, start + length + GUARD),
            start,
            length,
        }
    }

    pub fn part(&self) -> &[T] {
        &self.places[self.start..self.start + self.length]
    }

    pub fn part_mut(&mut self) -> &mut [T] {
        &mut self.places[self.start..self.start + self.length]
    }

    /// The first place where two forms of one buffer differ, counted from the
    /// start of the lent part (below 0: before it), and both values.
    pub fn first_difference(&self, other: &Lent<T>) -> Option<(isize, T, T)> {
        let mut pairs = self.places.iter().zip(&other.places);
        let at = pairs.position(|(one, another)| one != another)?;
        let place = at as isize - self.start as isize;
        Some((place, self.places[at], other.places[at]))
    }
}

/// An output or work space for an answer of `needed` places, filled with drawn
/// values, so that a place left alone is told from one written.
pub fn space<T: Place>(random: &mut Random, needed: usize, faults: Faults) -> Lent<T> {
    let length = if faults.strike(random, 2) {
        short_length(random, needed)
    } else {
        enough_length(random, needed)
    };
    Lent::drawn(random, length)
}

/// Exact, a little longer, or much longer than a small answer.
fn enough_length(random: &mut Random, needed: usize) -> usize {
    match random.below(8) {
        0..4 => needed,
        4..7 => needed + random.between(1, 9),
        _ => needed + random.between(10, 300),
    }
}

/// Empty, one short, or anything shorter; `needed` is not 0.
fn short_length(random: &mut Random, needed: usize) -> usize {
    match random.below(4) {
        0 => 0,
        1 => random.below(needed),
        _ => needed - 1,
    }
}

#[cfg(test)]
mod tests {
    use super::*;

    fn lengths(needed: usize, faults: Faults) -> Vec<usize> {
        let mut random = Random::new(1);
        let mut length = || space::<u32>(&mut random, needed, faults).part().len();
        (0..400).map(|_| length()).collect()
    }

    #[test]
    fn spaces_without_fault_are_exact_or_longer() {
        let lengths = lengths(12, Faults::Never);
        assert!(lengths.iter().all(|length| *length >= 12));
        assert!(lengths.contains(&12) && lengths.contains(&13));
        assert!(lengths.iter().any(|length| *length > 200));
    }

    #[test]
    fn damaged_spaces_are_empty_or_short() {
        let lengths = lengths(12, Faults::Maybe);
        for length in [0, 5, 11, 12, 21] {
            assert!(lengths.contains(&length), "no space of length {length}");
        }
    }

    #[test]
    fn work_spaces_of_32_bytes_a_pixel() {
        let mut random = Random::new(2);
        let work = space::<u8>(&mut random, 32 * 6, Faults::Never);
        assert!(work.part().len() >= 192);
        assert!(work.part().iter().any(|byte| *byte != 0));
    }

    #[test]
    fn writes_around_the_lent_part_are_seen() {
        let mut random = Random::new(4);
        let lent = Lent::<u8>::holding(&mut random, &[1, 2, 3]);
        assert_eq!(lent.part(), [1, 2, 3]);
        for place in [-1, 0, 2, 3, 10] {
            let mut written = lent.clone();
            written.places[(lent.start as isize + place) as usize] ^= 1;
            assert_ne!(lent, written);
            let (at, before, after) = lent.first_difference(&written).unwrap();
            assert_eq!((at, before ^ 1), (place, after));
        }
    }
}
