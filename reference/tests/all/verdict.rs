//! What checking must say of a text: a reader of its own, byte by byte, and
//! the refusals 2 to 11 from the definitions.

use crate::definitions::{plain_seam, size};
use reference::{Axis, EnergyRule, Kind, Method};

/// What a text of good form holds.
pub struct Contents {
    pub width: u64,
    pub height: u64,
    pub kind: Kind,
    pub depth: u64,
    pub growth: u64,
    pub method: Method,
    /// Samples of each row, and pixels of each row.
    pub rows: Vec<(Vec<u8>, u64)>,
    pub map: Vec<Vec<u64>>,
}

/// A place in a text.
pub struct Cursor<'a> {
    pub text: &'a [u8],
    pub at: usize,
}

impl Cursor<'_> {
    /// Goes on after the expected bytes if they stand here.
    pub fn meets(&mut self, expected: &str) -> bool {
        let found = self.text[self.at..].starts_with(expected.as_bytes());
        if found {
            self.at += expected.len();
        }
        found
    }

    pub fn must_meet(&mut self, expected: &str) -> Option<()> {
        self.meets(expected).then_some(())
    }

    /// What is named by the one that stands here.
    fn one_of<T, const N: usize>(&mut self, named: [(&str, T); N]) -> Option<T> {
        let mut named = named.into_iter();
        let (_, it) = named.find(|(expected, _)| self.meets(expected))?;
        Some(it)
    }

    /// A number from 0 to `largest` without leading zeros.
    pub fn number(&mut self, largest: u64) -> Option<u64> {
        let start = self.at;
        let mut value: u64 = 0;
        while let Some(b'0'..=b'9') = self.text.get(self.at) {
            let digit = u64::from(self.text[self.at] - b'0');
            value = value.saturating_mul(10).saturating_add(digit);
            self.at += 1;
        }
        let digits = &self.text[start..self.at];
        if digits.is_empty() || (digits.len() > 1 && digits[0] == b'0') || value > largest {
            return None;
        }
        Some(value)
    }
}

/// The contents of a text, or none when its form is broken.
pub fn contents(text: &[u8]) -> Option<Contents> {
    let mut cursor = Cursor { text, at: 0 };
    cursor.must_meet("(multi\n(size ")?;
    let width = cursor.number(65_535)?;
    cursor.must_meet(" ")?;
    let height = cursor.number(65_535)?;
    let kind = cursor.one_of([(" grey)\n", Kind::Grey), (" rgb)\n", Kind::Rgb)])?;
    cursor.must_meet("(range ")?;
    let depth = cursor.number(65_535)?;
    cursor.must_meet(" ")?;
    let growth = cursor.number(65_535)?;
    let energy = cursor.one_of([
        (")\n(energy edge)\n", EnergyRule::Edge),
        (")\n(energy flat)\n", EnergyRule::Flat),
        (")\n(energy forward)\n", EnergyRule::Forward),
    ])?;
    let rows = rows(&mut cursor, kind)?;
    let map = map(&mut cursor)?;
    cursor.must_meet(")\n")?;
    (cursor.at == text.len()).then_some(Contents {
        width,
        height,
        kind,
        depth,
        growth,
        method: Method { energy },
        rows,
        map,
    })
}

/// The row lines, each with its samples and the number of its pixels.
fn rows(cursor: &mut Cursor, kind: Kind) -> Option<Vec<(Vec<u8>, u64)>> {
    let mut rows = Vec::new();
    while cursor.meets("(row") {
        let mut samples = Vec::new();
        let mut pixels = 0;
        while cursor.meets(" ") {
            if kind == Kind::Grey {
                samples.push(cursor.number(255)? as u8);
            } else {
                cursor.must_meet("(")?;
                samples.push(cursor.number(255)? as u8);
                cursor.must_meet(" ")?;
                samples.push(cursor.number(255)? as u8);
                cursor.must_meet(" ")?;
                samples.push(cursor.number(255)? as u8);
                cursor.must_meet(")")?;
            }
            pixels += 1;
        }
        cursor.must_meet(")\n")?;
        rows.push((samples, pixels));
    }
    Some(rows)
}

/// The numbers of the map lines.
fn map(cursor: &mut Cursor) -> Option<Vec<Vec<u64>>> {
    let mut map = Vec::new();
    while cursor.meets("(map") {
        let mut numbers = Vec::new();
        while cursor.meets(" ") {
            numbers.push(cursor.number(65_535)?);
        }
        cursor.must_meet(")\n")?;
        map.push(numbers);
    }
    Some(map)
}

/// What checking must answer, with enough work space.
pub fn verdict(text: &[u8]) -> Result<(), u8> {
    let contents = contents(text).ok_or(1)?;
    before_the_map(&contents)?;
    map_verdict(&contents)
}

/// Refusals 2, 3, 4 and 6.
pub fn before_the_map(it: &Contents) -> Result<(), u8> {
    if it.width == 0 || it.height == 0 {
        return Err(2);
    }
    if it.width > 512 || it.height > 512 {
        return Err(3);
    }
    if it.rows.len() as u64 != it.height || it.map.len() as u64 != it.height {
        return Err(4);
    }
    if it.rows.iter().any(|(_, pixels)| *pixels != it.width) {
        return Err(4);
    }
    if it.map.iter().any(|row| row.len() as u64 != it.width) {
        return Err(4);
    }
    if it.depth + 1 > it.width || it.growth > it.depth || 2 * it.growth > it.width {
        return Err(6);
    }
    Ok(())
}

/// Refusals 9, 10 and 11, each judged for all rows and seams.
pub fn map_verdict(it: &Contents) -> Result<(), u8> {
    for row in &it.map {
        // The numbers but 0, in order, must be 1 to k.
        let mut numbers: Vec<u64> = row.iter().copied().filter(|number| *number != 0).collect();
        numbers.sort();
        if numbers != (1..=it.depth).collect::<Vec<u64>>() {
            return Err(9);
        }
    }
    let mut smallest = Ok(());
    for t in 1..=it.depth {
        // Columns of the pixels left before seam t, and the place of t there.
        let mut left = Vec::new();
        let mut recorded = Vec::new();
        for (row, (samples, pixels)) in it.map.iter().zip(&it.rows) {
            let columns: Vec<usize> = (0..row.len())
                .filter(|j| row[*j] == 0 || row[*j] >= t)
                .collect();
            let place = columns.iter().position(|j| row[*j] == t).unwrap();
            recorded.push(place as u16);
            let bytes = samples.len() / *pixels as usize;
            for j in columns {
                left.extend_from_slice(&samples[j * bytes..(j + 1) * bytes]);
            }
        }
        let mut broken = false;
        for i in 1..recorded.len() {
            broken |= recorded[i].abs_diff(recorded[i - 1]) > 1;
        }
        if broken {
            return Err(10);
        }
        let left_width = (it.width - (t - 1)) as usize;
        let left_size = size(left_width, it.height as usize, it.kind);
        if plain_seam(&left, left_size, it.method, Axis::Vertical).0 != recorded {
            smallest = Err(11);
        }
    }
    smallest
}
