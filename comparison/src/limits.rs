//! Sizes at and around the limits of the programs: 1,024 pixels, sides of 512,
//! sides that are refused.

use crate::pictures::ROUND;
use reference::{Kind, Size};

/// One round in so many has these sizes.
const RARITY: u64 = 8;

/// Allowed sizes of 1,024 pixels, a little below and above that, with the
/// largest sides, and one whose grey picture is an input of 65,537 bytes.
const ALLOWED: [(usize, usize); 21] = [
    (32, 32),
    (512, 2),
    (2, 512),
    (64, 16),
    (16, 64),
    (33, 31),
    (31, 33),
    (341, 3),
    (3, 341),
    (33, 32),
    (32, 33),
    (41, 25),
    (25, 41),
    (205, 5),
    (5, 205),
    (512, 3),
    (3, 512),
    (512, 1),
    (1, 512),
    (204, 5),
    (362, 181),
];

/// Sizes that are refused by 2 or 3.
const REFUSED: [(usize, usize); 10] = [
    (513, 1),
    (1, 513),
    (513, 2),
    (2, 513),
    (0, 1),
    (1, 0),
    (0, 0),
    (0, 512),
    (513, 0),
    (0, 65_535),
];

/// The size at the limits that a turn has, if it has one: at the end of a
/// round, in both kinds.
pub fn size_of_turn(turn: u64) -> Option<Size> {
    if !(turn / ROUND).is_multiple_of(RARITY) {
        return None;
    }
    let from_end = (ROUND - 1 - turn % ROUND) as usize;
    let (width, height) = *ALLOWED.iter().chain(&REFUSED).nth(from_end / 2)?;
    Some(Size {
        width,
        height,
        kind: [Kind::Grey, Kind::Rgb][from_end % 2],
    })
}

/// The same without sizes that are refused by 2 or 3.
pub fn allowed_size_of_turn(turn: u64) -> Option<Size> {
    let size = size_of_turn(turn)?;
    ALLOWED.contains(&(size.width, size.height)).then_some(size)
}

#[cfg(test)]
mod tests {
    use super::*;

    #[test]
    fn every_size_comes_in_both_kinds_in_the_first_round() {
        let sizes: Vec<Size> = (0..ROUND).filter_map(size_of_turn).collect();
        assert_eq!(sizes.len(), 2 * (ALLOWED.len() + REFUSED.len()));
        for kind in [Kind::Grey, Kind::Rgb] {
            for (width, height) in ALLOWED.into_iter().chain(REFUSED) {
                assert!(sizes.contains(&Size {
                    width,
                    height,
                    kind
                }));
            }
        }
        assert!((ROUND..8 * ROUND).all(|turn| size_of_turn(turn).is_none()));
        let allowed = (0..ROUND).filter_map(allowed_size_of_turn);
        assert_eq!(allowed.count(), 2 * ALLOWED.len());
    }
}
