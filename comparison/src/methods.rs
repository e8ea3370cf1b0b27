//! The method that seams are found by, known and unknown.

use crate::faults::Faults;
use crate::pictures::unknown_number;
use crate::random::Random;
use reference::{EnergyRule, Method};
use std::fmt;

pub const EDGE: Method = Method {
    energy: EnergyRule::Edge,
};
pub const FLAT: Method = Method {
    energy: EnergyRule::Flat,
};
pub const FORWARD: Method = Method {
    energy: EnergyRule::Forward,
};
pub const METHODS: [Method; 3] = [EDGE, FLAT, FORWARD];

/// The method as a call names it, and as the archive takes it: energy 0 is
/// `edge`, 1 is `flat`, 2 is `forward`.
#[repr(C)]
#[derive(Clone, Copy, Debug, PartialEq, Eq)]
pub struct NamedMethod {
    pub energy: u8,
}

impl NamedMethod {
    /// What a refused answer has for a method.
    pub const NONE: NamedMethod = NamedMethod { energy: 0 };

    pub fn of(method: Method) -> NamedMethod {
        let energy = match method.energy {
            EnergyRule::Edge => 0,
            EnergyRule::Flat => 1,
            EnergyRule::Forward => 2,
        };
        NamedMethod { energy }
    }

    /// The method for the reference, or none where the number names no energy.
    pub fn known(self) -> Option<Method> {
        match self.energy {
            0 => Some(EDGE),
            1 => Some(FLAT),
            2 => Some(FORWARD),
            _ => None,
        }
    }
}

impl fmt::Display for NamedMethod {
    fn fmt(&self, f: &mut fmt::Formatter) -> fmt::Result {
        let energy = match self.energy {
            0 => "edge",
            1 => "flat",
            2 => "forward",
            _ => "unknown",
        };
        write!(f, "energy {} ({energy})", self.energy)
    }
}

/// Any method.
pub fn drawn(random: &mut Random) -> Method {
    random.pick(&METHODS)
}

/// The method that the call names. A fault is an unknown energy.
pub fn named_method(random: &mut Random, faults: Faults) -> NamedMethod {
    if faults.strike(random, 12) {
        NamedMethod {
            energy: unknown_number(random, 3),
        }
    } else {
        NamedMethod::of(drawn(random))
    }
}

#[cfg(test)]
mod tests {
    use super::*;

    #[test]
    fn all_methods_come_and_unknown_ones() {
        let mut random = Random::new(1);
        let mut draw = |faults| -> Vec<NamedMethod> {
            (0..1000)
                .map(|_| named_method(&mut random, faults))
                .collect()
        };
        let (sound, struck) = (draw(Faults::Never), draw(Faults::Maybe));
        let count = |drawn: &[NamedMethod], method: Option<Method>| {
            drawn.iter().filter(|named| named.known() == method).count()
        };
        assert_eq!(count(&sound, None), 0);
        assert!((30..200).contains(&count(&struck, None)));
        for drawn in [&sound, &struck] {
            assert!(METHODS.iter().all(|it| count(drawn, Some(*it)) > 260));
        }
        for energy in [3, 255] {
            assert!(struck.contains(&NamedMethod { energy }), "no {energy}");
        }
    }

    #[test]
    fn known_methods_have_their_numbers() {
        for (method, energy) in [(EDGE, 0), (FLAT, 1), (FORWARD, 2)] {
            assert_eq!(NamedMethod::of(method), NamedMethod { energy });
            assert_eq!(NamedMethod { energy }.known(), Some(method));
        }
    }
}
