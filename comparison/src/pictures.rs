//! Sizes, pictures and row numbers, sound and damaged.

use crate::contents::samples;
use crate::faults::Faults;
use crate::methods::NamedMethod;
use crate::random::Random;
use crate::spaces::Lent;
use reference::{Kind, Method, Size};
use std::fmt;

/// Turns after which the small shapes come again.
pub const ROUND: u64 = 256;

/// The largest side of the small shapes, each of which is in every round.
const SMALL: usize = 6;

/// The largest shapes, each of which is in some rounds.
const LARGEST: [(usize, usize); 3] = [(512, 1), (1, 512), (512, 512)];

/// The longest buffer that is made for a size that isn't allowed.
const LONGEST: usize = 1 << 20;

/// The size as a call names it, and as the archive takes it: any numbers; kind 0
/// is grey, 1 is rgb.
#[repr(C)]
#[derive(Clone, Copy, Debug, PartialEq, Eq)]
pub struct NamedSize {
    pub width: usize,
    pub height: usize,
    pub kind: u8,
}

impl NamedSize {
    /// What a refused answer has for a size.
    pub const NONE: NamedSize = NamedSize {
        width: 0,
        height: 0,
        kind: 0,
    };

    pub fn of(size: Size) -> NamedSize {
        NamedSize {
            width: size.width,
            height: size.height,
            kind: match size.kind {
                Kind::Grey => 0,
                Kind::Rgb => 1,
            },
        }
    }

    /// The size for the reference, or none where the number names no kind.
    pub fn known(self) -> Option<Size> {
        let kind = match self.kind {
            0 => Kind::Grey,
            1 => Kind::Rgb,
            _ => return None,
        };
        Some(Size {
            width: self.width,
            height: self.height,
            kind,
        })
    }

    /// The size and the method for the reference, or none where a number names
    /// no kind or no energy.
    pub fn known_by(self, method: NamedMethod) -> Option<(Size, Method)> {
        Some((self.known()?, method.known()?))
    }
}

impl fmt::Display for NamedSize {
    fn fmt(&self, f: &mut fmt::Formatter) -> fmt::Result {
        let kind = match self.kind {
            0 => "grey",
            1 => "rgb",
            _ => "unknown",
        };
        let NamedSize { width, height, .. } = self;
        write!(f, "{width} by {height}, kind {} ({kind})", self.kind)
    }
}

/// Samples of a pixel.
pub fn channels(kind: Kind) -> usize {
    match kind {
        Kind::Grey => 1,
        Kind::Rgb => 3,
    }
}

/// Bytes of a row; any number for a size that isn't allowed.
pub fn row_bytes(size: Size) -> usize {
    size.width.wrapping_mul(channels(size.kind))
}

/// Bytes of a picture of an allowed size.
pub fn byte_count(size: Size) -> usize {
    size.width * size.height * channels(size.kind)
}

/// The allowed size that a case starts from, and whether its arguments may be
/// damaged. The shapes of a round are all served, so they bring no fault. The
/// largest ones are in the first of every `rarity` rounds, and other large
/// ones are rare likewise.
pub fn start(random: &mut Random, turn: u64, rarity: u64) -> (Size, Faults) {
    let (round, place) = (turn / ROUND, (turn % ROUND) as usize);
    let largest: &[_] = if round % rarity == 0 { &LARGEST } else { &[] };
    if let Some(size) = shape_of_round(place, largest) {
        return (size, Faults::Never);
    }
    let faults = random.pick(&[Faults::Never, Faults::Maybe]);
    (any_size(random, rarity), faults)
}

/// Every small shape and the largest ones, in both kinds, and then none.
fn shape_of_round(place: usize, largest: &[(usize, usize)]) -> Option<Size> {
    let shape = place / 2;
    if shape < SMALL * SMALL {
        return Some(small_shape(place));
    }
    let (width, height) = *largest.get(shape - SMALL * SMALL)?;
    Some(Size {
        width,
        height,
        kind: [Kind::Grey, Kind::Rgb][place % 2],
    })
}

/// The small shapes one after another, each in both kinds, again and again.
pub fn small_shape(place: usize) -> Size {
    let shape = place / 2;
    Size {
        width: 1 + shape % SMALL,
        height: 1 + shape / SMALL % SMALL,
        kind: [Kind::Grey, Kind::Rgb][place % 2],
    }
}

/// Mostly small, sometimes up to the largest side.
fn any_size(random: &mut Random, rarity: u64) -> Size {
    let most = random.pick(&[SMALL, SMALL, SMALL, SMALL, SMALL, 20, 20, 60]);
    let most = if random.one_in(20 * rarity as usize) {
        512
    } else {
        most
    };
    Size {
        width: random.between(1, most),
        height: random.between(1, most),
        kind: random.pick(&[Kind::Grey, Kind::Rgb]),
    }
}

/// The size that the call names. A fault is a side that isn't allowed or an
/// unknown kind.
pub fn named_size(random: &mut Random, size: Size, faults: Faults) -> NamedSize {
    let mut named = NamedSize::of(size);
    if faults.strike(random, 5) {
        named.width = damaged_side(random, size.width);
    }
    if faults.strike(random, 5) {
        named.height = damaged_side(random, size.height);
    }
    if faults.strike(random, 12) {
        named.kind = unknown_number(random, 2);
    }
    named
}

/// A number that names nothing, where so many numbers from 0 on do: there are 2
/// kinds, 2 axes and 3 energies.
pub fn unknown_number(random: &mut Random, known: u8) -> u8 {
    let any = random.between(usize::from(known), 255) as u8;
    random.pick(&[known, 255, any])
}

/// 0, just over the largest side, a number whose products wrap around, or one
/// that becomes the right side when it is cut to 8, 16 or 32 bits.
fn damaged_side(random: &mut Random, side: usize) -> usize {
    let far = [
        514,
        1 << 16,
        1 << 32,
        1 << 63,
        usize::MAX / 3,
        usize::MAX / 3 + 1,
        usize::MAX,
        side + (1 << 10),
        side + (1 << 16),
        side + (1 << 32),
    ];
    match random.below(4) {
        0 => 0,
        1 => 513,
        _ => random.pick(&far),
    }
}

/// A picture for the size that the case starts from, under the size that the
/// call names.
pub fn picture(random: &mut Random, size: Size, named: NamedSize, faults: Faults) -> Lent<u8> {
    let mut bytes = samples(random, size);
    let length = picture_length(random, size, named, faults);
    let fill = random.byte();
    bytes.resize(length, fill);
    Lent::holding(random, &bytes)
}

/// The length of a picture. Half of the sizes that aren't allowed get the
/// length that a multiplication which wraps around would give.
fn picture_length(random: &mut Random, size: Size, named: NamedSize, faults: Faults) -> usize {
    let pixels = named.width.wrapping_mul(named.height);
    let wrapped = pixels.wrapping_mul(channels(size.kind));
    if named != NamedSize::of(size) && wrapped <= LONGEST && random.one_in(2) {
        return wrapped;
    }
    let pixels = size.width * size.height;
    let other_kind = match size.kind {
        Kind::Grey => 3 * pixels,
        Kind::Rgb => pixels,
    };
    buffer_length(random, byte_count(size), other_kind, faults)
}

/// The exact length of a buffer, or where a fault strikes one short, one long,
/// none or another one.
pub fn buffer_length(random: &mut Random, exact: usize, other: usize, faults: Faults) -> usize {
    if faults.strike(random, 4) {
        random.pick(&[exact - 1, exact + 1, 0, other])
    } else {
        exact
    }
}

/// A row number: often the first or the last row. A fault is one that isn't
/// below the height.
pub fn row_number(random: &mut Random, height: usize, faults: Faults) -> usize {
    let row = match random.below(4) {
        0 => 0,
        1 => height - 1,
        _ => random.below(height),
    };
    if faults.strike(random, 4) {
        let far = [1 << 63, usize::MAX - 1, usize::MAX, row + (1 << 32)];
        let beyond = random.pick(&far);
        return random.pick(&[height, height + 1, beyond]);
    }
    row
}

#[cfg(test)]
mod tests {
    use super::*;

    /// The sizes that the cases of some rounds start from.
    fn sizes(rounds: u64, rarity: u64) -> Vec<Size> {
        let size = |turn| start(&mut Random::of_case(1, turn), turn, rarity).0;
        (0..rounds * ROUND).map(size).collect()
    }

    #[test]
    fn one_round_has_every_small_shape_and_the_largest() {
        let sizes = sizes(1, 8);
        for kind in [Kind::Grey, Kind::Rgb] {
            let small = (1..=6).flat_map(|width| (1..=6).map(move |height| (width, height)));
            for (width, height) in small.chain([(512, 1), (1, 512), (512, 512)]) {
                assert!(sizes.contains(&Size {
                    width,
                    height,
                    kind
                }));
            }
        }
    }

    #[test]
    fn shapes_are_allowed_mostly_small_and_sometimes_large() {
        let sizes = sizes(8, 1);
        let side = |size: &Size| size.width.max(size.height);
        assert!(sizes.iter().all(|size| side(size) <= 512));
        assert!(sizes.iter().filter(|size| side(size) <= 6).count() > sizes.len() / 2);
        let large = |size: &&Size| size.width.min(size.height) > 100;
        assert!(sizes.iter().filter(large).count() > 30);
    }

    #[test]
    fn large_shapes_can_be_made_rarer() {
        let large = |size: &&Size| size.width.min(size.height) > 100;
        let large = |rarity| sizes(16, rarity).iter().filter(large).count();
        assert!((5..30).contains(&large(8)), "{}", large(8));
        assert!(large(1) > 5 * large(8));
    }

    #[test]
    fn damaged_sides_occur() {
        let mut random = Random::new(1);
        let sides: Vec<usize> = (0..1000).map(|_| damaged_side(&mut random, 5)).collect();
        let far = [1 << 32, 1 << 63, usize::MAX / 3, usize::MAX, 5 + (1 << 32)];
        for side in [0, 513].into_iter().chain(far) {
            assert!(sides.contains(&side), "no side {side}");
        }
        assert!(sides.iter().all(|side| *side == 0 || *side > 512));
    }

    const RGB: Size = Size {
        width: 3,
        height: 2,
        kind: Kind::Rgb,
    };

    #[test]
    fn named_sizes_are_as_they_start_or_damaged() {
        let mut random = Random::new(2);
        assert!(named_size(&mut random, RGB, Faults::Never).known() == Some(RGB));
        let mut draw = || named_size(&mut random, RGB, Faults::Maybe);
        let named: Vec<NamedSize> = (0..1000).map(|_| draw()).collect();
        assert!(named.iter().any(|named| named.known().is_none()));
        assert!(named
            .iter()
            .any(|named| named.width == 0 && named.height > 512));
        assert!(named
            .iter()
            .any(|named| named.width > 512 && named.height == 0));
        let sound = |named: &&NamedSize| named.known() == Some(RGB);
        assert!(named.iter().filter(sound).count() > 400);
    }

    #[test]
    fn damaged_lengths_occur() {
        let mut random = Random::new(3);
        let mut length = || picture_length(&mut random, RGB, NamedSize::of(RGB), Faults::Maybe);
        let lengths: Vec<usize> = (0..400).map(|_| length()).collect();
        for length in [0, 6, 17, 18, 19] {
            assert!(lengths.contains(&length), "no length {length}");
        }
    }

    #[test]
    fn sizes_that_wrap_around_get_the_wrapped_length() {
        let mut random = Random::new(4);
        let named = NamedSize {
            width: usize::MAX / 3 + 1,
            height: 1,
            kind: 1,
        };
        let mut length = || picture_length(&mut random, RGB, named, Faults::Maybe);
        let lengths: Vec<usize> = (0..100).map(|_| length()).collect();
        assert!(lengths.contains(&2));
    }

    #[test]
    fn row_numbers_reach_both_sides_of_the_height() {
        let mut random = Random::new(5);
        assert!((0..400).all(|_| row_number(&mut random, 4, Faults::Never) < 4));
        let mut draw = || row_number(&mut random, 4, Faults::Maybe);
        let rows: Vec<usize> = (0..1000).map(|_| draw()).collect();
        for row in [0, 1, 2, 3, 4, 5, 1 << 63, usize::MAX] {
            assert!(rows.contains(&row), "no row {row}");
        }
    }
}
