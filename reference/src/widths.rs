//! The picture that a map defines at each offered width.

use crate::grid::{bytes_of, give_out, pixel, Grid, Pixel};
use crate::picture::Kind;
use crate::refusal::{ensure, Refusal, COUNT, SPACE};

/// Gives a row of a picture at a width, by its row of the map, and the number
/// of its bytes. It may be of any length, its numbers may be any, and any width
/// may be wanted.
pub fn row_at(
    samples: &[u8],
    kind: Kind,
    numbers: &[u16],
    wanted: usize,
    out: &mut [u8],
) -> Result<usize, Refusal> {
    let channels = kind.channels();
    ensure(samples.len() == numbers.len() * channels, COUNT)?;
    let pixels = samples.chunks(channels).map(pixel).collect();
    let shown = at_width(&vec![pixels], &vec![numbers.to_vec()], wanted);
    let bytes = bytes_of(&shown, kind);
    ensure(out.len() >= bytes.len(), SPACE)?;
    give_out(out, &bytes);
    Ok(bytes.len())
}

/// Whether depth and growth are allowed at a width:
/// 0 ≤ k ≤ m−1, g ≤ k, g ≤ m/2 rounded down.
pub fn is_allowed_range(width: usize, depth: usize, growth: usize) -> bool {
    depth < width && growth <= depth && growth <= width / 2
}

/// Whether a file with an allowed range offers the wanted width:
/// m−k to m+g and no others.
pub fn is_offered(width: usize, depth: usize, growth: usize, wanted: usize) -> bool {
    width - depth <= wanted && wanted <= width + growth
}

/// The picture at an offered width.
pub fn at_width(picture: &Grid<Pixel>, map: &Grid<u16>, wanted: usize) -> Grid<Pixel> {
    let width = picture[0].len();
    if wanted <= width {
        narrower(picture, map, width - wanted)
    } else {
        wider(picture, map, wanted - width)
    }
}

/// Width m−t: the pixels whose number is 0 or greater than t.
pub fn narrower(picture: &Grid<Pixel>, map: &Grid<u16>, t: usize) -> Grid<Pixel> {
    let mut shown = Vec::new();
    for (pixels, numbers) in picture.iter().zip(map) {
        let mut row = Vec::new();
        for (pixel, number) in pixels.iter().zip(numbers) {
            if *number == 0 || usize::from(*number) > t {
                row.push(*pixel);
            }
        }
        shown.push(row);
    }
    shown
}

/// Width m+u: all pixels, and one new pixel for each pixel numbered 1 to u.
fn wider(picture: &Grid<Pixel>, map: &Grid<u16>, u: usize) -> Grid<Pixel> {
    let mut shown = Vec::new();
    for (pixels, numbers) in picture.iter().zip(map) {
        shown.push(wider_row(pixels, numbers, u));
    }
    shown
}

/// A row at width m+u. Neighbours are taken in the original row.
fn wider_row(pixels: &[Pixel], numbers: &[u16], u: usize) -> Vec<Pixel> {
    let mut row = Vec::new();
    for column in 0..pixels.len() {
        let number = usize::from(numbers[column]);
        let has_new_pixel = 1 <= number && number <= u;
        if !has_new_pixel {
            row.push(pixels[column]);
        } else if column + 1 < pixels.len() {
            // Directly to the right, with the right neighbour.
            row.push(pixels[column]);
            row.push(average(pixels[column], pixels[column + 1]));
        } else {
            // In the last column directly to the left, with the left
            // neighbour. A new pixel of the column before is already there
            // and so stands ahead of it. A row of one pixel has no other
            // neighbour than the pixel itself.
            let left = column.saturating_sub(1);
            row.push(average(pixels[column], pixels[left]));
            row.push(pixels[column]);
        }
    }
    row
}

/// The half of the sum rounded down, per channel.
fn average(a: Pixel, b: Pixel) -> Pixel {
    let mut average = [0; 3];
    for channel in 0..average.len() {
        average[channel] = ((u16::from(a[channel]) + u16::from(b[channel])) / 2) as u8;
    }
    average
}
