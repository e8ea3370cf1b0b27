//! The text of a multi-size file. Reading judges the form of the whole text
//! (refusal 1) and nothing else: sides, counts, range and map are judged
//! afterwards.

use crate::energy::{EnergyRule, Method};
use crate::grid::{pixel, Grid, Pixel};
use crate::picture::{Kind, Size};
use crate::refusal::{ensure, Refusal, FORM};

/// The largest number in a text.
const LARGEST_NUMBER: usize = 65_535;

/// What a text of good form says. The counts of rows, pixels and numbers are
/// as they stand in the text and need not agree with the size.
pub struct Text {
    pub size: Size,
    pub method: Method,
    pub depth: usize,
    pub growth: usize,
    pub rows: Grid<Pixel>,
    pub map: Grid<u16>,
}

/// The word for a kind in the size line.
fn kind_word(kind: Kind) -> &'static str {
    match kind {
        Kind::Grey => "grey",
        Kind::Rgb => "rgb",
    }
}

/// The word for a rule in the energy line.
pub fn energy_word(rule: EnergyRule) -> &'static str {
    match rule {
        EnergyRule::Edge => "edge",
        EnergyRule::Flat => "flat",
        EnergyRule::Forward => "forward",
    }
}

/// Reads a text: the lines in their order, each ended by byte 10, nothing
/// after the last.
pub fn read_text(file: &[u8]) -> Result<Text, Refusal> {
    let lines = split_lines(file)?;
    // The shortest form: `(multi`, size, range, energy and `)`.
    ensure(lines.len() >= 5, FORM)?;
    let last = lines.len() - 1;
    ensure(lines[0] == b"(multi", FORM)?;
    let size = read_size(lines[1])?;
    let (depth, growth) = read_range(lines[2])?;
    let energy = read_energy(lines[3])?;
    ensure(lines[last] == b")", FORM)?;

    let mut rows = Vec::new();
    let mut map = Vec::new();
    for line in &lines[4..last] {
        if map.is_empty() && line.starts_with(b"(row") {
            rows.push(read_row(line, size.kind)?);
        } else {
            // After the first map line only map lines may follow.
            map.push(read_map_row(line)?);
        }
    }
    Ok(Text {
        size,
        method: Method { energy },
        depth,
        growth,
        rows,
        map,
    })
}

/// The lines without their line ends. The last byte must be a line end.
fn split_lines(file: &[u8]) -> Result<Vec<&[u8]>, Refusal> {
    let body = file.strip_suffix(b"\n").ok_or(FORM)?;
    Ok(body.split(|byte| *byte == b'\n').collect())
}

/// The items of a line `(word item item)`: one blank between neighbours, none
/// inside a bracket's edge. A doubled blank gives an empty item, which no
/// reader of an item accepts.
fn items<'a>(line: &'a [u8], word: &str) -> Result<Vec<&'a [u8]>, Refusal> {
    let inside = line.strip_prefix(b"(").ok_or(FORM)?;
    let inside = inside.strip_suffix(b")").ok_or(FORM)?;
    let mut items = inside.split(|byte| *byte == b' ');
    ensure(items.next() == Some(word.as_bytes()), FORM)?;
    Ok(items.collect())
}

/// `(size 3 2 grey)`: width, height, kind.
fn read_size(line: &[u8]) -> Result<Size, Refusal> {
    let items = items(line, "size")?;
    ensure(items.len() == 3, FORM)?;
    Ok(Size {
        width: read_number(items[0])?,
        height: read_number(items[1])?,
        kind: read_kind(items[2])?,
    })
}

/// The kind that a word names.
fn read_kind(word: &[u8]) -> Result<Kind, Refusal> {
    for kind in [Kind::Grey, Kind::Rgb] {
        if word == kind_word(kind).as_bytes() {
            return Ok(kind);
        }
    }
    Err(FORM)
}

/// `(range 2 1)`: depth, growth.
fn read_range(line: &[u8]) -> Result<(usize, usize), Refusal> {
    let items = items(line, "range")?;
    ensure(items.len() == 2, FORM)?;
    Ok((read_number(items[0])?, read_number(items[1])?))
}

/// `(energy edge)`, `(energy flat)` or `(energy forward)`.
fn read_energy(line: &[u8]) -> Result<EnergyRule, Refusal> {
    let items = items(line, "energy")?;
    ensure(items.len() == 1, FORM)?;
    for rule in EnergyRule::ALL {
        if items[0] == energy_word(rule).as_bytes() {
            return Ok(rule);
        }
    }
    Err(FORM)
}

/// `(row 10 10 40)`, or in `rgb` `(row (1 2 3) (4 5 6))`.
fn read_row(line: &[u8], kind: Kind) -> Result<Vec<Pixel>, Refusal> {
    let items = items(line, "row")?;
    let channels = kind.channels();
    // An item is a run of bytes without a blank, so an `rgb` pixel is three
    // items: `(1`, `2` and `3)`.
    ensure(items.len() % channels == 0, FORM)?;
    items
        .chunks(channels)
        .map(|items| read_pixel(items, kind))
        .collect()
}

/// A pixel in its kind's form.
fn read_pixel(items: &[&[u8]], kind: Kind) -> Result<Pixel, Refusal> {
    match kind {
        Kind::Grey => Ok(pixel(&[read_sample(items[0])?])),
        Kind::Rgb => {
            let red = items[0].strip_prefix(b"(").ok_or(FORM)?;
            let green = items[1];
            let blue = items[2].strip_suffix(b")").ok_or(FORM)?;
            Ok(pixel(&[
                read_sample(red)?,
                read_sample(green)?,
                read_sample(blue)?,
            ]))
        }
    }
}

/// `(map 1 0 2)`.
fn read_map_row(line: &[u8]) -> Result<Vec<u16>, Refusal> {
    let items = items(line, "map")?;
    let mut numbers = Vec::new();
    for item in items {
        numbers.push(u16::try_from(read_number(item)?).map_err(|_| FORM)?);
    }
    Ok(numbers)
}

/// A sample, 0 to 255.
fn read_sample(word: &[u8]) -> Result<u8, Refusal> {
    u8::try_from(read_number(word)?).map_err(|_| FORM)
}

/// A number, 0 to 65535 without leading zeros.
pub fn read_number(word: &[u8]) -> Result<usize, Refusal> {
    ensure(!word.is_empty(), FORM)?;
    ensure(word.iter().all(|byte| byte.is_ascii_digit()), FORM)?;
    ensure(word.len() == 1 || word[0] != b'0', FORM)?;
    // More than five digits without a leading zero exceed the largest number.
    ensure(word.len() <= 5, FORM)?;
    let mut number = 0;
    for byte in word {
        number = 10 * number + usize::from(byte - b'0');
    }
    ensure(number <= LARGEST_NUMBER, FORM)?;
    Ok(number)
}

/// Writes the text of a picture and its map.
pub fn write_text(
    size: Size,
    method: Method,
    depth: usize,
    growth: usize,
    picture: &Grid<Pixel>,
    map: &Grid<u16>,
) -> Vec<u8> {
    let mut text = String::new();
    text += "(multi\n";
    text += &format!(
        "(size {} {} {})\n",
        size.width,
        size.height,
        kind_word(size.kind)
    );
    text += &format!("(range {} {})\n", depth, growth);
    text += &format!("(energy {})\n", energy_word(method.energy));
    for row in picture {
        let pixels: Vec<String> = row.iter().map(|it| pixel_text(it, size.kind)).collect();
        text += &format!("(row {})\n", pixels.join(" "));
    }
    for row in map {
        let numbers: Vec<String> = row.iter().map(|number| number.to_string()).collect();
        text += &format!("(map {})\n", numbers.join(" "));
    }
    text += ")\n";
    text.into_bytes()
}

/// A pixel in its kind's form.
fn pixel_text(pixel: &Pixel, kind: Kind) -> String {
    match kind {
        Kind::Grey => pixel[0].to_string(),
        Kind::Rgb => format!("({} {} {})", pixel[0], pixel[1], pixel[2]),
    }
}
