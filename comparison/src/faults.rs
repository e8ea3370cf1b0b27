//! Whether the arguments of a case may be damaged.

use crate::random::Random;

#[derive(Clone, Copy, PartialEq, Eq)]
pub enum Faults {
    /// Every argument is as it should be.
    Never,
    /// Each argument may be damaged, whether others are or not, so that cases
    /// with several faults are frequent.
    Maybe,
}

impl Faults {
    /// Whether to damage the next argument: once in `count` on average.
    pub fn strike(self, random: &mut Random, count: usize) -> bool {
        self == Faults::Maybe && random.one_in(count)
    }
}
