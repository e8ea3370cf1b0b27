//! The axis of a seam, known and unknown.

use crate::faults::Faults;
use crate::pictures::unknown_number;
use crate::random::Random;
use reference::{Axis, Size};
use std::fmt;

/// The axis as a call names it: 0 is vertical, 1 is horizontal.
#[derive(Clone, Copy, PartialEq, Eq)]
pub struct NamedAxis(pub u8);

impl NamedAxis {
    pub fn of(axis: Axis) -> NamedAxis {
        match axis {
            Axis::Vertical => NamedAxis(0),
            Axis::Horizontal => NamedAxis(1),
        }
    }

    /// The axis for the reference, or none where the number names no axis.
    pub fn known(self) -> Option<Axis> {
        match self.0 {
            0 => Some(Axis::Vertical),
            1 => Some(Axis::Horizontal),
            _ => None,
        }
    }
}

impl fmt::Display for NamedAxis {
    fn fmt(&self, f: &mut fmt::Formatter) -> fmt::Result {
        let axis = match self.0 {
            0 => "vertical",
            1 => "horizontal",
            _ => "unknown",
        };
        write!(f, "{} ({axis})", self.0)
    }
}

/// The axis that the call names. A fault is an unknown one.
pub fn named_axis(random: &mut Random, axis: Axis, faults: Faults) -> NamedAxis {
    if faults.strike(random, 12) {
        NamedAxis(unknown_number(random, 2))
    } else {
        NamedAxis::of(axis)
    }
}

/// Entries of a seam: one a row, or one a column.
pub fn seam_length(size: Size, axis: Axis) -> usize {
    match axis {
        Axis::Vertical => size.height,
        Axis::Horizontal => size.width,
    }
}

#[cfg(test)]
mod tests {
    use super::*;

    #[test]
    fn axes_are_as_they_start_or_unknown() {
        for axis in [Axis::Vertical, Axis::Horizontal] {
            let mut random = Random::new(1);
            let sound = named_axis(&mut random, axis, Faults::Never);
            assert!(sound.known() == Some(axis));
            let mut draw = || named_axis(&mut random, axis, Faults::Maybe);
            let drawn: Vec<NamedAxis> = (0..1000).map(|_| draw()).collect();
            assert!(drawn.contains(&NamedAxis(2)) && drawn.contains(&NamedAxis(255)));
            let unknown = |axis: &&NamedAxis| axis.known().is_none();
            assert!((30..200).contains(&drawn.iter().filter(unknown).count()));
        }
    }
}
