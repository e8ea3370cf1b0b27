//! The seams of a file drawn over its picture.

use multisize::{Contents, Picture, Refusal, Size};

/// The picture in rgb, with the first seams in colours by their numbers.
pub fn drawn(contents: &Contents, first: usize) -> Result<Picture, Refusal> {
    let Size {
        width,
        height,
        kind,
    } = contents.picture.size();
    let last = first.min(contents.range.depth);
    let pixels = contents.picture.samples().chunks(kind.channels());
    let samples =
        pixels
            .zip(&contents.map)
            .flat_map(|(pixel, number)| match (usize::from(*number), pixel) {
                (number, _) if (1..=last).contains(&number) => colour(number, last),
                (_, [red, green, blue]) => [*red, *green, *blue],
                (_, _) => [pixel[0]; 3],
            });
    Picture::new(Size::rgb(width, height), samples.collect())
}

/// The colour of a seam: from blue for 1 over green to red for the last.
fn colour(number: usize, last: usize) -> [u8; 3] {
    let place = (number - 1) * 1020 / (last - 1).max(1);
    let step = (place % 255) as u8;
    match place / 255 {
        0 => [0, step, 255],
        1 => [0, 255, 255 - step],
        2 => [step, 255, 0],
        3 => [255, 255 - step, 0],
        _ => [255, 0, 0],
    }
}

#[cfg(test)]
mod tests {
    use super::colour;
    use std::collections::HashSet;

    #[test]
    fn no_two_seams_share_a_colour() {
        for last in [1, 2, 3, 100, 511] {
            let colours: HashSet<[u8; 3]> = (1..=last).map(|t| colour(t, last)).collect();
            assert_eq!(colours.len(), last);
        }
        assert_eq!((colour(1, 1), colour(1, 511)), ([0, 0, 255], [0, 0, 255]));
        assert_eq!((colour(2, 3), colour(3, 3)), ([0, 255, 0], [255, 0, 0]));
    }
}
