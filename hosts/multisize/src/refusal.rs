//! Why an operation says no.

use std::error::Error;
use std::fmt;

/// Why an operation was refused. Of several reasons the one with the smallest
/// number is given. Further numbers may follow.
///
/// ```
/// use multisize::Refusal;
///
/// assert_eq!(Refusal::Mark.number(), 5);
/// assert_eq!(Refusal::Mark.to_string(), "refused (5): a mark is over 2");
/// ```
#[derive(Clone, Copy, PartialEq, Eq, Hash)]
#[non_exhaustive]
pub enum Refusal {
    /// 1: text or Netpbm header breaks its form.
    Form = 1,
    /// 2: width or height 0.
    Empty,
    /// 3: width or height over [`LARGEST_SIDE`](crate::LARGEST_SIDE).
    Large,
    /// 4: a length or a count isn't what the size says.
    Length,
    /// 5: a mark over 2.
    Mark,
    /// 6: depth or growth not allowed.
    Range,
    /// 7: wanted width not offered, or a retarget too far.
    Wanted,
    /// 8: output space or work space too short. The operations of this crate
    /// make their spaces long enough and don't give it.
    Space,
    /// 9: a map row lacks one of 1 to the depth, repeats one, or holds more.
    Numbering,
    /// 10: a recorded seam isn't connected in the picture left before it.
    Broken,
    /// 11: a recorded seam isn't the one found.
    Other,
    /// 12: every seam meets a protected pixel.
    Protected,
    /// 13: a cut of the last column or row.
    Last,
}

impl Refusal {
    /// All of them, by ascending number.
    pub const ALL: &'static [Refusal] = &[
        Refusal::Form,
        Refusal::Empty,
        Refusal::Large,
        Refusal::Length,
        Refusal::Mark,
        Refusal::Range,
        Refusal::Wanted,
        Refusal::Space,
        Refusal::Numbering,
        Refusal::Broken,
        Refusal::Other,
        Refusal::Protected,
        Refusal::Last,
    ];

    /// The number.
    pub fn number(self) -> u8 {
        self as u8
    }

    /// The refusal with this number, if there is one.
    ///
    /// ```
    /// use multisize::Refusal;
    ///
    /// assert_eq!(Refusal::numbered(13), Some(Refusal::Last));
    /// assert_eq!(Refusal::numbered(14), None);
    /// ```
    pub fn numbered(number: u64) -> Option<Refusal> {
        let mut all = Refusal::ALL.iter().copied();
        all.find(|refusal| u64::from(refusal.number()) == number)
    }

    /// The meaning in words.
    pub fn meaning(self) -> &'static str {
        match self {
            Refusal::Form => "the text or the Netpbm header breaks its form",
            Refusal::Empty => "width or height is 0",
            Refusal::Large => "width or height is over 512",
            Refusal::Length => {
                "a buffer's length, or the number of rows, samples or map numbers, \
                 isn't what the size says"
            }
            Refusal::Mark => "a mark is over 2",
            Refusal::Range => "depth or growth isn't allowed",
            Refusal::Wanted => {
                "the wanted width isn't offered, or a retarget leaves less than \
                 1 row or column or takes more than 64"
            }
            Refusal::Space => {
                "the output space is shorter than the answer, or the work space is too short"
            }
            Refusal::Numbering => {
                "a map row lacks one of the numbers 1 to the depth, repeats one, or holds more"
            }
            Refusal::Broken => "a recorded seam isn't connected in the picture left before it",
            Refusal::Other => "a recorded seam isn't the one found",
            Refusal::Protected => "every seam meets a protected pixel",
            Refusal::Last => "the last column or row can't be cut",
        }
    }
}

impl fmt::Display for Refusal {
    fn fmt(&self, f: &mut fmt::Formatter) -> fmt::Result {
        write!(f, "refused ({}): {}", self.number(), self.meaning())
    }
}

/// The same sentence, since that is what `main` prints of an error.
impl fmt::Debug for Refusal {
    fn fmt(&self, f: &mut fmt::Formatter) -> fmt::Result {
        fmt::Display::fmt(self, f)
    }
}

impl Error for Refusal {}

#[cfg(test)]
mod tests {
    use super::*;

    #[test]
    fn numbers_ascend_from_1() {
        let numbers: Vec<u8> = Refusal::ALL.iter().map(|why| why.number()).collect();
        assert_eq!(numbers, (1..=13).collect::<Vec<u8>>());
        assert_eq!(Refusal::numbered(0), None);
        assert_eq!(Refusal::numbered(u64::MAX), None);
    }

    #[test]
    fn main_prints_a_sentence() {
        let printed = format!("{:?}", Refusal::Mark);
        assert_eq!(printed, Refusal::Mark.to_string());
    }

    #[test]
    fn words_name_the_limits() {
        let limit = crate::LARGEST_SIDE.to_string();
        assert!(Refusal::Large.meaning().ends_with(&limit));
        let count = crate::LARGEST_COUNT.to_string();
        assert!(Refusal::Wanted.meaning().ends_with(&count));
    }
}
