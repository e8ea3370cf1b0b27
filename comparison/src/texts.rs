//! The text of multi-size files: a file's parts, the words of its lines, and
//! its bytes. The writer is no part of the reference.

use crate::contents::samples;
use crate::methods;
use crate::pictures::{byte_count, channels};
use crate::random::Random;
use crate::ranges::Range;
use reference::{EnergyRule, Kind, Method, Size};

/// What a file says.
#[derive(Clone)]
pub struct Parts {
    pub size: Size,
    pub range: Range,
    pub method: Method,
    /// As many as the size says.
    pub samples: Vec<u8>,
    /// A row for each row of the picture.
    pub map: Vec<Vec<u16>>,
}

impl Parts {
    /// A drawn picture and method, and the map that the reference builds for them.
    pub fn drawn(random: &mut Random, size: Size, range: Range) -> Parts {
        let samples = samples(random, size);
        let method = methods::drawn(random);
        let map = map_of(&samples, size, method, range);
        Parts {
            size,
            range,
            method,
            samples,
            map,
        }
    }

    pub fn text(&self) -> Vec<u8> {
        Words::of(self).text()
    }
}

/// The map in the file that the reference builds.
pub fn map_of(samples: &[u8], size: Size, method: Method, range: Range) -> Vec<Vec<u16>> {
    let mut out = vec![0; text_length(samples, size, method, range)];
    let mut work = vec![0; 32 * size.width * size.height];
    let Range { depth, growth } = range;
    reference::build(samples, size, method, depth, growth, &mut out, &mut work)
        .expect("an allowed range and enough space");
    let lines = out.split(|byte| *byte == b'\n');
    let maps = lines.filter_map(|line| line.strip_prefix(b"(map "));
    maps.map(numbers).collect()
}

/// The numbers of a map line after its word.
fn numbers(line: &[u8]) -> Vec<u16> {
    let line = line.strip_suffix(b")").expect("a closing bracket");
    let line = str::from_utf8(line).expect("digits and blanks");
    let number = |word: &str| word.parse().expect("a number");
    line.split(' ').map(number).collect()
}

/// The length of a picture's file, which is the same for every map.
pub fn text_length(samples: &[u8], size: Size, method: Method, range: Range) -> usize {
    let map = vec![some_numbers(size.width, range.depth); size.height];
    let parts = Parts {
        size,
        range,
        method,
        samples: samples.to_vec(),
        map,
    };
    debug_assert_eq!(samples.len(), byte_count(size));
    parts.text().len()
}

/// A map row of so many numbers in which 1 to `depth` stand once.
pub fn some_numbers(width: usize, depth: usize) -> Vec<u16> {
    let mut numbers: Vec<u16> = (1..=depth as u16).collect();
    numbers.resize(width, 0);
    numbers
}

/// The words of each line after its first; a pixel counts as a word.
#[derive(Clone)]
pub struct Words {
    pub size: Vec<String>,
    pub range: Vec<String>,
    /// A good file has one.
    pub energy: Vec<EnergyLine>,
    pub rows: Vec<Vec<String>>,
    pub map: Vec<Vec<String>>,
}

/// An energy line, whole, and where it stands: ahead of the first line (0), the
/// size (1), the range (2), the rows (3), the map (4) or the last line (5), or
/// after that (6).
#[derive(Clone)]
pub struct EnergyLine {
    pub text: String,
    pub place: usize,
}

/// How many places there are for an energy line, and the one of a good file.
pub const PLACES: usize = 7;
const ENERGY_PLACE: usize = 3;

impl EnergyLine {
    /// The line with this word, where a good file has it.
    pub fn of(word: &str) -> EnergyLine {
        EnergyLine {
            text: format!("(energy {word})"),
            place: ENERGY_PLACE,
        }
    }
}

impl Words {
    pub fn of(parts: &Parts) -> Words {
        let Size {
            width,
            height,
            kind,
        } = parts.size;
        let Range { depth, growth } = parts.range;
        let rows = parts.samples.chunks((width * channels(kind)).max(1));
        Words {
            size: vec![
                width.to_string(),
                height.to_string(),
                name(kind).to_string(),
            ],
            range: vec![depth.to_string(), growth.to_string()],
            energy: vec![EnergyLine::of(energy_name(parts.method))],
            rows: rows.map(|row| pixels(row, kind)).collect(),
            map: parts.map.iter().map(|row| words(row)).collect(),
        }
    }

    pub fn text(&self) -> Vec<u8> {
        let sorts: [Vec<String>; PLACES] = [
            vec![String::from("(multi")],
            lines("size", std::slice::from_ref(&self.size)),
            lines("range", std::slice::from_ref(&self.range)),
            lines("row", &self.rows),
            lines("map", &self.map),
            vec![String::from(")")],
            Vec::new(),
        ];
        let mut text = String::new();
        for (place, sort) in sorts.iter().enumerate() {
            let energy = self.energy.iter().filter(|line| line.place == place);
            for line in energy.map(|line| &line.text).chain(sort) {
                text += line;
                text += "\n";
            }
        }
        text.into_bytes()
    }
}

/// Lines that begin with this word, each with its items.
fn lines(word: &str, all: &[Vec<String>]) -> Vec<String> {
    let line =
        |items: &Vec<String>| format!("({})", [&[word.to_string()], &items[..]].concat().join(" "));
    all.iter().map(line).collect()
}

fn name(kind: Kind) -> &'static str {
    match kind {
        Kind::Grey => "grey",
        Kind::Rgb => "rgb",
    }
}

fn energy_name(method: Method) -> &'static str {
    match method.energy {
        EnergyRule::Edge => "edge",
        EnergyRule::Flat => "flat",
        EnergyRule::Forward => "forward",
    }
}

/// The pixels of a row in their kind's form.
fn pixels(row: &[u8], kind: Kind) -> Vec<String> {
    let pixel = |pixel: &[u8]| format!("({})", words(pixel).join(" "));
    match kind {
        Kind::Grey => words(row),
        Kind::Rgb => row.chunks(3).map(pixel).collect(),
    }
}

fn words<T: ToString>(numbers: &[T]) -> Vec<String> {
    numbers.iter().map(T::to_string).collect()
}

#[cfg(test)]
mod tests {
    use super::*;
    use crate::methods::{EDGE, FLAT, FORWARD};
    use crate::ranges;

    /// What the reference builds, byte for byte.
    fn built(parts: &Parts) -> Vec<u8> {
        let Parts {
            size,
            range,
            method,
            samples,
            ..
        } = parts;
        let (mut out, mut work) = (vec![0; 1 << 20], vec![0; 1 << 20]);
        let Range { depth, growth } = *range;
        let length = reference::build(samples, *size, *method, depth, growth, &mut out, &mut work);
        out.truncate(length.unwrap());
        out
    }

    #[test]
    fn texts_are_those_of_the_reference() {
        let mut random = Random::new(1);
        for turn in 0..300 {
            let size = Size {
                width: random.between(1, 12),
                height: random.between(1, 12),
                kind: [Kind::Grey, Kind::Rgb][turn % 2],
            };
            let range = ranges::allowed(&mut random, size, 10_000);
            let parts = Parts::drawn(&mut random, size, range);
            assert_eq!(parts.text(), built(&parts));
            let length = text_length(&parts.samples, size, parts.method, range);
            assert_eq!(length, parts.text().len());
        }
    }

    #[test]
    fn texts_of_the_worked_picture() {
        let mut parts = Parts {
            size: Size {
                width: 3,
                height: 2,
                kind: Kind::Grey,
            },
            range: Range {
                depth: 2,
                growth: 1,
            },
            method: EDGE,
            samples: vec![10, 10, 40, 10, 50, 40],
            map: vec![vec![1, 0, 2], vec![1, 0, 2]],
        };
        let text = "(multi\n(size 3 2 grey)\n(range 2 1)\n(energy edge)\n\
            (row 10 10 40)\n(row 10 50 40)\n(map 1 0 2)\n(map 1 0 2)\n)\n";
        assert_eq!(parts.text(), text.as_bytes());
        let map_by = |method| map_of(&[10, 10, 40, 10, 50, 40], parts.size, method, parts.range);
        assert_eq!(map_by(EDGE), parts.map);
        let map = map_by(FLAT);
        (parts.method, parts.map) = (FLAT, map);
        let text = "(multi\n(size 3 2 grey)\n(range 2 1)\n(energy flat)\n\
            (row 10 10 40)\n(row 10 50 40)\n(map 2 0 1)\n(map 0 2 1)\n)\n";
        assert_eq!(parts.text(), text.as_bytes());
        let map = map_by(FORWARD);
        (parts.method, parts.map) = (FORWARD, map);
        let text = "(multi\n(size 3 2 grey)\n(range 2 1)\n(energy forward)\n\
            (row 10 10 40)\n(row 10 50 40)\n(map 1 2 0)\n(map 2 1 0)\n)\n";
        assert_eq!(parts.text(), text.as_bytes());
    }

    #[test]
    fn rgb_pixels_are_forms() {
        assert_eq!(
            pixels(&[1, 2, 3, 4, 5, 6], Kind::Rgb),
            ["(1 2 3)", "(4 5 6)"]
        );
    }
}
