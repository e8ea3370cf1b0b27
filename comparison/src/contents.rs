//! The samples of pictures.

use crate::pictures::channels;
use crate::random::Random;
use reference::Size;

/// The samples of a pixel; a grey one uses the first alone.
type Pixel = [u8; 3];

/// The samples of a picture of this size.
pub fn samples(random: &mut Random, size: Size) -> Vec<u8> {
    let contents = random.pick(&[few, few, flat, checks, across, down, noise, terrain, edged]);
    contents(random, size)
}

/// Pixels of two or three colours, so that many energies and costs are equal.
fn few(random: &mut Random, size: Size) -> Vec<u8> {
    let low = random.byte();
    let values = random.pick(&[[0, 255, 128], [low, low.wrapping_add(1), low / 2]]);
    let mut colour = || [0; 3].map(|_: u8| random.pick(&values));
    let colours = [colour(), colour(), colour()];
    let count = random.between(2, 3);
    each_pixel(size, |_, _| random.pick(&colours[..count]))
}

/// One colour.
fn flat(random: &mut Random, size: Size) -> Vec<u8> {
    let colour = drawn_pixel(random);
    each_pixel(size, |_, _| colour)
}

/// Two colours in turn, so that all energies are equal (by `edge` those at the
/// edges too), and with black and white the largest.
fn checks(random: &mut Random, size: Size) -> Vec<u8> {
    let drawn = [drawn_pixel(random), drawn_pixel(random)];
    let colours = random.pick(&[drawn, [[0; 3], [255; 3]]]);
    each_pixel(size, |row, column| colours[(row + column) % 2])
}

/// Samples that grow or fall by a fixed step from column to column.
fn across(random: &mut Random, size: Size) -> Vec<u8> {
    let (start, step) = (drawn_pixel(random), steps(random));
    each_pixel(size, |_, column| along(start, step, column))
}

/// Samples that grow or fall by a fixed step from row to row.
fn down(random: &mut Random, size: Size) -> Vec<u8> {
    let (start, step) = (drawn_pixel(random), steps(random));
    each_pixel(size, |row, _| along(start, step, row))
}

fn noise(random: &mut Random, size: Size) -> Vec<u8> {
    each_pixel(size, |_, _| drawn_pixel(random))
}

/// Smooth hills, crossed by ridges with steep sides.
fn terrain(random: &mut Random, size: Size) -> Vec<u8> {
    let hills = [0; 3].map(|_| Hill::drawn(random, size));
    let ridges = [0; 2].map(|_| Ridge::drawn(random, size));
    each_pixel(size, |row, column| {
        let (row, column) = (row as i64, column as i64);
        let hills: i64 = hills.iter().map(|hill| hill.rise(row, column)).sum();
        let ridges: i64 = ridges.iter().map(|ridge| ridge.rise(row, column)).sum();
        let level = (hills + ridges).clamp(0, 255) as u8;
        [level, level / 2 + 20, 200 - level / 2]
    })
}

/// A loud picture with a quiet edge, along which seams run, or a quiet one with
/// a loud edge: the last column, the last row or both, one or two wide.
fn edged(random: &mut Random, size: Size) -> Vec<u8> {
    let (columns, rows) = random.pick(&[(1, 0), (2, 0), (0, 1), (0, 2), (1, 1), (2, 2)]);
    let (inside, at_edge) = random.pick(&[(255, 2), (2, 255)]);
    let level = random.between(0, 253) as u8;
    each_pixel(size, |row, column| {
        let is_edge = column + columns >= size.width || row + rows >= size.height;
        let most = if is_edge { at_edge } else { inside };
        [0; 3].map(|_: u8| level.wrapping_add(random.between(0, most) as u8))
    })
}

struct Hill {
    row: i64,
    column: i64,
    radius: i64,
    height: i64,
}

impl Hill {
    fn drawn(random: &mut Random, size: Size) -> Hill {
        Hill {
            row: random.below(size.height) as i64,
            column: random.below(size.width) as i64,
            radius: random.between(2, 2 + size.width.max(size.height)) as i64,
            height: random.between(20, 150) as i64,
        }
    }

    fn rise(&self, row: i64, column: i64) -> i64 {
        let reach = self.radius * self.radius;
        let distance = (row - self.row).pow(2) + (column - self.column).pow(2);
        self.height * (reach - distance).max(0) / reach
    }
}

/// The pixels near the line a·row + b·column = c.
struct Ridge {
    a: i64,
    b: i64,
    c: i64,
    height: i64,
}

impl Ridge {
    fn drawn(random: &mut Random, size: Size) -> Ridge {
        let (a, b) = random.pick(&[(1, 0), (0, 1), (1, 1), (1, 2), (2, 1), (3, 1)]);
        let row = random.below(size.height) as i64;
        let column = random.below(size.width) as i64;
        Ridge {
            a,
            b,
            c: a * row + b * column,
            height: random.between(30, 120) as i64,
        }
    }

    fn rise(&self, row: i64, column: i64) -> i64 {
        let off = (self.a * row + self.b * column - self.c).abs();
        if off <= 1 {
            self.height
        } else {
            0
        }
    }
}

fn drawn_pixel(random: &mut Random) -> Pixel {
    [random.byte(), random.byte(), random.byte()]
}

/// A step from −4 to 4 for each channel, modulo 256.
fn steps(random: &mut Random) -> Pixel {
    [0; 3].map(|_: u8| (random.between(0, 8) as u8).wrapping_sub(4))
}

/// The start and so many steps, modulo 256.
fn along(start: Pixel, step: Pixel, count: usize) -> Pixel {
    let sample = |c: usize| start[c].wrapping_add(step[c].wrapping_mul(count as u8));
    [sample(0), sample(1), sample(2)]
}

/// The bytes of the picture whose pixel at (row, column) is given.
fn each_pixel(size: Size, mut pixel: impl FnMut(usize, usize) -> Pixel) -> Vec<u8> {
    let channels = channels(size.kind);
    let mut bytes = Vec::with_capacity(size.width * size.height * channels);
    for row in 0..size.height {
        for column in 0..size.width {
            bytes.extend_from_slice(&pixel(row, column)[..channels]);
        }
    }
    bytes
}

#[cfg(test)]
mod tests {
    use super::*;
    use crate::methods::EDGE;
    use crate::pictures::byte_count;
    use reference::{Axis, Kind};

    fn size(width: usize, height: usize, kind: Kind) -> Size {
        Size {
            width,
            height,
            kind,
        }
    }

    #[test]
    fn samples_fit_the_size() {
        let mut random = Random::new(1);
        for turn in 0..200 {
            let kind = [Kind::Grey, Kind::Rgb][turn % 2];
            let size = size(random.between(1, 30), random.between(1, 30), kind);
            assert_eq!(samples(&mut random, size).len(), byte_count(size));
        }
    }

    #[test]
    fn flat_and_ramps() {
        let mut random = Random::new(2);
        let grey = size(5, 4, Kind::Grey);
        let flat = flat(&mut random, grey);
        assert!(flat.iter().all(|sample| *sample == flat[0]));
        let across = across(&mut random, grey);
        assert!((1..4).all(|row| across[row * 5..row * 5 + 5] == across[..5]));
        let down = down(&mut random, grey);
        assert!((0..4).all(|row| down[row * 5..row * 5 + 5] == [down[row * 5]; 5]));
    }

    #[test]
    fn energies_of_checks_are_equal() {
        let grey = size(5, 4, Kind::Grey);
        let samples = checks(&mut Random::new(5), grey);
        let step = u32::from(samples[0].abs_diff(samples[1]));
        assert!(step > 0);
        for row in 0..4 {
            let mut energies = [0; 5];
            reference::energies(&samples, grey, EDGE, row, &mut energies).unwrap();
            assert_eq!(energies, [2 * step; 5]);
        }
    }

    /// Along either axis, how many seams of such pictures lie in the last line
    /// all the way, and how many meet it nowhere.
    #[test]
    fn seams_run_along_quiet_edges_and_not_along_loud_ones() {
        let mut random = Random::new(6);
        let size = size(6, 5, Kind::Grey);
        for (axis, length, last) in [(Axis::Vertical, 5, 5), (Axis::Horizontal, 6, 4)] {
            let mut counts = [0; 2];
            for _ in 0..400 {
                let picture = edged(&mut random, size);
                let (mut seam, mut work) = (vec![0; length], [0; 32 * 30]);
                reference::find(&picture, size, EDGE, axis, &mut seam, &mut work).unwrap();
                let met = seam.iter().filter(|place| **place == last).count();
                counts[0] += usize::from(met == length);
                counts[1] += usize::from(met == 0);
            }
            assert!(counts.iter().all(|count| *count > 20), "{counts:?}");
        }
    }

    #[test]
    fn terrain_is_smooth_for_the_most_part_and_steep_in_places() {
        let mut random = Random::new(3);
        let samples = terrain(&mut random, size(100, 100, Kind::Grey));
        let steps: Vec<u8> = samples
            .windows(2)
            .map(|pair| pair[0].abs_diff(pair[1]))
            .collect();
        assert!(steps.iter().filter(|step| **step <= 4).count() > steps.len() * 8 / 10);
        assert!(steps.iter().any(|step| *step >= 25));
    }

    /// Whether the least energy of the picture's first row occurs twice.
    fn tie(random: &mut Random, size: Size) -> bool {
        let mut energies = vec![0; size.width];
        reference::energies(&samples(random, size), size, EDGE, 0, &mut energies).unwrap();
        let least = energies.iter().min();
        energies
            .iter()
            .filter(|energy| Some(*energy) == least)
            .count()
            > 1
    }

    #[test]
    fn ties_abound() {
        let mut random = Random::new(4);
        for kind in [Kind::Grey, Kind::Rgb] {
            let ties = (0..1000).filter(|_| tie(&mut random, size(5, 4, kind)));
            assert!(ties.count() > 400);
        }
    }
}
