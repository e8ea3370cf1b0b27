//! Depths and growths of files, and wanted widths, allowed and not.

use crate::faults::Faults;
use crate::random::Random;
use reference::Size;
use std::fmt;

/// Depth and growth; any numbers.
#[derive(Clone, Copy, Debug, PartialEq, Eq)]
pub struct Range {
    pub depth: usize,
    pub growth: usize,
}

impl fmt::Display for Range {
    fn fmt(&self, f: &mut fmt::Formatter) -> fmt::Result {
        write!(f, "depth {}, growth {}", self.depth, self.growth)
    }
}

/// The largest allowed range at a width.
pub fn whole(width: usize) -> Range {
    Range {
        depth: width - 1,
        growth: (width / 2).min(width - 1),
    }
}

/// An allowed range whose seams look at no more than so many pixels together.
pub fn allowed(random: &mut Random, size: Size, most: usize) -> Range {
    let deepest = (size.width - 1).min(most / (size.width * size.height));
    let depth = some(random, deepest);
    let growth = some(random, depth.min(size.width / 2));
    Range { depth, growth }
}

/// None, as much as there can be, or some.
fn some(random: &mut Random, most: usize) -> usize {
    let some = random.between(0, most);
    random.pick(&[0, most, most, some, some])
}

/// The range that a call names. A fault is a depth that leaves no column, or a
/// growth over the depth or over half of the width.
pub fn named(random: &mut Random, range: Range, width: usize, faults: Faults) -> Range {
    let Range { depth, growth } = range;
    let mut named = range;
    if faults.strike(random, 6) {
        let beyond = far(random, depth);
        named.depth = random.pick(&[width, width, width + 1, beyond]);
    }
    if faults.strike(random, 6) {
        let beyond = far(random, growth);
        named.growth = random.pick(&[depth + 1, width / 2 + 1, width, beyond]);
    }
    named
}

/// A number that overflows soon, or one that becomes the given number when it
/// is cut to 16 or 32 bits.
fn far(random: &mut Random, number: usize) -> usize {
    random.pick(&[
        number + (1 << 16),
        number + (1 << 32),
        1 << 63,
        usize::MAX - 1,
        usize::MAX,
    ])
}

/// A width that the file offers. A fault is one that it doesn't.
pub fn wanted(random: &mut Random, width: usize, range: Range, faults: Faults) -> usize {
    let (least, most) = (width - range.depth, width + range.growth);
    if faults.strike(random, 3) {
        // In a line of `fit` these have a good form, and the far ones don't.
        let beyond = random.pick(&[most + 2, most + 256, 65_535]);
        let far = far(random, width);
        return random.pick(&[0, least - 1, most + 1, most + 1, beyond, far]);
    }
    let any = random.between(least, most);
    random.pick(&[least, most, any, any])
}

#[cfg(test)]
mod tests {
    use super::*;
    use reference::Kind;

    fn size(width: usize, height: usize) -> Size {
        Size {
            width,
            height,
            kind: Kind::Grey,
        }
    }

    fn is_allowed(range: Range, width: usize) -> bool {
        let Range { depth, growth } = range;
        depth < width && growth <= depth && growth <= width / 2
    }

    #[test]
    fn every_allowed_range_comes_at_small_widths() {
        let mut random = Random::new(1);
        for width in 1..=6 {
            let mut draw = || allowed(&mut random, size(width, 3), 1000);
            let ranges: Vec<Range> = (0..600).map(|_| draw()).collect();
            assert!(ranges.iter().all(|range| is_allowed(*range, width)));
            for depth in 0..width {
                for growth in 0..=depth.min(width / 2) {
                    assert!(ranges.contains(&Range { depth, growth }));
                }
            }
            assert!(ranges.contains(&whole(width)));
        }
    }

    #[test]
    fn large_pictures_get_small_depths() {
        let mut random = Random::new(2);
        let mut draw = || allowed(&mut random, size(512, 512), 800_000).depth;
        let depths: Vec<usize> = (0..100).map(|_| draw()).collect();
        assert!(depths.contains(&3) && depths.iter().all(|depth| *depth <= 3));
    }

    #[test]
    fn ranges_that_are_not_allowed_occur() {
        let mut random = Random::new(3);
        let range = Range {
            depth: 3,
            growth: 2,
        };
        assert_eq!(named(&mut random, range, 5, Faults::Never), range);
        let mut draw = || named(&mut random, range, 5, Faults::Maybe);
        let named: Vec<Range> = (0..3000).map(|_| draw()).collect();
        for depth in [3, 5, 6, 3 + (1 << 16), 3 + (1 << 32), usize::MAX] {
            assert!(named.iter().any(|range| range.depth == depth), "{depth}");
        }
        for growth in [2, 3, 4, 5, 2 + (1 << 16), 1 << 63, usize::MAX] {
            assert!(named.iter().any(|range| range.growth == growth), "{growth}");
        }
        assert!(named
            .iter()
            .all(|named| *named == range || !is_allowed(*named, 5)));
    }

    #[test]
    fn wanted_widths_are_offered_or_beside_or_far() {
        let mut random = Random::new(4);
        let range = Range {
            depth: 3,
            growth: 2,
        };
        let mut draw = |faults| wanted(&mut random, 5, range, faults);
        let sound: Vec<usize> = (0..400).map(|_| draw(Faults::Never)).collect();
        assert!((2..=7).all(|width| sound.contains(&width)));
        assert!(sound.iter().all(|width| (2..=7).contains(width)));
        let struck: Vec<usize> = (0..1000).map(|_| draw(Faults::Maybe)).collect();
        for width in [0, 1, 2, 7, 8, 9, 7 + 256, 65_535] {
            assert!(struck.contains(&width), "{width}");
        }
        for width in [5 + (1 << 16), 5 + (1 << 32), usize::MAX] {
            assert!(struck.contains(&width), "{width}");
        }
    }
}
