//! The numbers under "When it says no" in the specification.

/// The number of a refusal.
pub type Refusal = u8;

/// Text or Netpbm header breaks its form.
pub const FORM: Refusal = 1;
/// Width or height 0.
pub const SIDE_ZERO: Refusal = 2;
/// Width or height over the largest side.
pub const SIDE_TOO_LARGE: Refusal = 3;
/// A buffer's length or a count isn't what the size says.
pub const COUNT: Refusal = 4;
/// A mark over 2.
pub const MARK: Refusal = 5;
/// Depth or growth not allowed.
pub const RANGE: Refusal = 6;
/// Wanted width not offered, or a retarget too far.
pub const NOT_OFFERED: Refusal = 7;
/// Output space or work space too short.
pub const SPACE: Refusal = 8;
/// A map row lacks one of 1 to k, repeats one, or holds more than k.
pub const MAP_ROW: Refusal = 9;
/// A recorded seam isn't connected in the picture left before it.
pub const BROKEN_SEAM: Refusal = 10;
/// A recorded seam isn't the one found.
pub const OTHER_SEAM: Refusal = 11;
/// Every seam meets a protected pixel.
pub const ALL_PROTECTED: Refusal = 12;
/// A cut of the last column or row.
pub const LAST_LINE: Refusal = 13;

/// Gives `number` unless the condition holds.
pub fn ensure(holds: bool, number: Refusal) -> Result<(), Refusal> {
    if holds {
        Ok(())
    } else {
        Err(number)
    }
}
