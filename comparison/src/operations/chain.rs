//! The file that the program `seams` writes, shown by the program `fit` at every
//! width, against the picture carved by the reference's cuts alone.

use super::one_input::Case;
use crate::carved::at_width;
use crate::contents::samples;
use crate::difference::Difference;
use crate::methods::EDGE;
use crate::netpbm::Netpbm;
use crate::pictures::{small_shape, ROUND};
use crate::programs::{refusal, Program, MOST_PIXELS};
use crate::random::Random;
use crate::ranges::whole;
use reference::{Kind, Size};

/// The places in a round of these cases.
const PLACES: std::ops::Range<u64> = 84..90;

/// One case in so many has a larger picture, whose widest forms are over the
/// most pixels.
const LARGER: u64 = 100;

/// The size of the picture in a turn that has such a case: each small shape in
/// turn, in both kinds.
pub fn size_of_turn(turn: u64) -> Option<Size> {
    let (round, place) = (turn / ROUND, turn % ROUND);
    if !PLACES.contains(&place) {
        return None;
    }
    let count = round * (PLACES.end - PLACES.start) + place - PLACES.start;
    if count.is_multiple_of(LARGER) {
        return Some(Size {
            width: 32,
            height: 24,
            kind: [Kind::Grey, Kind::Rgb][(count / LARGER % 2) as usize],
        });
    }
    Some(small_shape(count as usize))
}

/// Every width that the file offers, and one beyond on either side. The case
/// counts once, as an answer, with all its widths.
pub fn compare(random: &mut Random, size: Size) -> Result<u64, Difference> {
    let samples = samples(random, size);
    let picture = Netpbm::of(size, &samples).bytes();
    // What `seams` writes, or the case ends here.
    let file = Program::Seams.by_reference(&picture);
    Case::of(random, Program::Seams, picture).compare()?;
    let most = size.width + whole(size.width).growth;
    for wanted in 0..=most + 1 {
        let input = [format!("{wanted}\n").as_bytes(), &file].concat();
        let case = Case::of(random, Program::Fit, input);
        let run = case.program.run(&case.input);
        let expected = expected(&samples, size, wanted);
        case.verdict("carving by cuts", &expected, &run)?;
    }
    Ok(0)
}

/// What `fit` writes for the picture's file at a width.
fn expected(samples: &[u8], size: Size, wanted: usize) -> Vec<u8> {
    let most = size.width + whole(size.width).growth;
    if wanted == 0 || wanted > most {
        return refusal(7);
    }
    if wanted * size.height > MOST_PIXELS {
        return refusal(8);
    }
    let shown = Size {
        width: wanted,
        ..size
    };
    Netpbm::of(shown, &at_width(samples, size, EDGE, wanted)).bytes()
}

#[cfg(test)]
mod tests {
    use super::*;

    #[test]
    fn every_small_shape_and_a_larger_one_come() {
        let sizes: Vec<Size> = (0..20 * ROUND).filter_map(size_of_turn).collect();
        for kind in [Kind::Grey, Kind::Rgb] {
            let small = (1..=6).flat_map(|width| (1..=6).map(move |height| (width, height)));
            for (width, height) in small.chain([(32, 24)]) {
                assert!(sizes.contains(&Size {
                    width,
                    height,
                    kind
                }));
            }
        }
    }

    #[test]
    fn expected_of_the_worked_picture() {
        let size = Size {
            width: 3,
            height: 2,
            kind: Kind::Grey,
        };
        let expected = |wanted| expected(&[10, 10, 40, 10, 50, 40], size, wanted);
        assert_eq!(expected(2), b"P5\n2 2\n255\n\x0a\x28\x32\x28");
        assert_eq!(expected(0), refusal(7));
        assert_eq!(expected(5), refusal(7));
        let wide = Size {
            width: 32,
            height: 24,
            kind: Kind::Grey,
        };
        assert_eq!(super::expected(&[0; 768], wide, 43), refusal(8));
        assert!(super::expected(&[0; 768], wide, 42).starts_with(b"P5\n42 24\n"));
    }

    /// A file that isn't the picture's is noticed: the samples are others.
    #[test]
    fn another_picture_is_noticed() {
        let size = Size {
            width: 2,
            height: 1,
            kind: Kind::Grey,
        };
        let file = Program::Seams.by_reference(&Netpbm::of(size, &[1, 2]).bytes());
        let input = [b"2\n".as_slice(), &file].concat();
        let case = Case::of(&mut Random::new(1), Program::Fit, input);
        let run = case.program.run(&case.input);
        let verdict = |samples| case.verdict("carving", &expected(samples, size, 2), &run);
        assert!(verdict(&[1, 2]).is_ok());
        assert!(verdict(&[1, 3]).is_err());
    }
}
