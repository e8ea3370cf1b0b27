//! The operations on multi-size files.

use crate::energy::Method;
use crate::grid::{bytes_of, give_out, pixels_of, Grid, Pixel};
use crate::map::{build_map, judge_map};
use crate::picture::{byte_count, judge_picture, judge_sides, judge_work, pixel_count, Size};
use crate::refusal::{ensure, Refusal, COUNT, NOT_OFFERED, RANGE, SPACE};
use crate::text::{read_text, write_text, Text};
use crate::widths::{at_width, is_allowed_range, is_offered};

/// What a file says besides picture and map.
#[derive(Clone, Copy, Debug, PartialEq, Eq)]
pub struct FileInfo {
    pub size: Size,
    pub method: Method,
    pub depth: usize,
    pub growth: usize,
}

/// Builds the file of a picture and gives the length of its text. Refusals 2,
/// 3, 4, 6 and 8.
pub fn build(
    picture: &[u8],
    size: Size,
    method: Method,
    depth: usize,
    growth: usize,
    out: &mut [u8],
    work: &mut [u8],
) -> Result<usize, Refusal> {
    judge_picture(picture, size)?;
    ensure(is_allowed_range(size.width, depth, growth), RANGE)?;
    let pixels = pixels_of(picture, size);
    let length = text_length(size, method, depth, growth, &pixels);
    ensure(out.len() >= length, SPACE)?;
    judge_work(work, size)?;
    work.fill(0);

    let map = build_map(&pixels, method, depth);
    give_out(out, &write_text(size, method, depth, growth, &pixels, &map));
    Ok(length)
}

/// The length of the text, found without seams: each map row holds 1 to k
/// once and m−k zeros, in whatever order.
fn text_length(
    size: Size,
    method: Method,
    depth: usize,
    growth: usize,
    pixels: &Grid<Pixel>,
) -> usize {
    let mut numbers: Vec<u16> = (1..=depth).map(|number| number as u16).collect();
    numbers.resize(size.width, 0);
    let map = vec![numbers; size.height];
    write_text(size, method, depth, growth, pixels, &map).len()
}

/// Reads a text and judges 1, 2, 3, 4 and 6.
pub fn read_judged(file: &[u8]) -> Result<Text, Refusal> {
    let text = read_text(file)?;
    judge_sides(text.size)?;
    ensure(counts_agree(&text), COUNT)?;
    ensure(
        is_allowed_range(text.size.width, text.depth, text.growth),
        RANGE,
    )?;
    Ok(text)
}

/// Whether row lines, map lines, pixels in each row and numbers in each map
/// row are as many as the size says.
fn counts_agree(text: &Text) -> bool {
    let Size { width, height, .. } = text.size;
    text.rows.len() == height
        && text.map.len() == height
        && text.rows.iter().all(|row| row.len() == width)
        && text.map.iter().all(|row| row.len() == width)
}

/// Refusal 7 for a file that `read_judged` gave.
pub fn judge_wanted_width(text: &Text, wanted: usize) -> Result<(), Refusal> {
    let offered = is_offered(text.size.width, text.depth, text.growth, wanted);
    ensure(offered, NOT_OFFERED)
}

/// What a text gives by value.
fn info_of(text: &Text) -> FileInfo {
    FileInfo {
        size: text.size,
        method: text.method,
        depth: text.depth,
        growth: text.growth,
    }
}

/// Checks a file, its seams by the method that it names. Refusals 1, 2, 3, 4, 6,
/// 8, 9, 10 and 11.
pub fn check(file: &[u8], work: &mut [u8]) -> Result<FileInfo, Refusal> {
    let text = read_judged(file)?;
    judge_work(work, text.size)?;
    work.fill(0);
    judge_map(&text.rows, &text.map, text.method, text.depth)?;
    Ok(info_of(&text))
}

/// Reads a file's picture and map into two output spaces. Refuses what
/// checking refuses.
pub fn read(
    file: &[u8],
    picture: &mut [u8],
    map: &mut [u16],
    work: &mut [u8],
) -> Result<FileInfo, Refusal> {
    let text = read_judged(file)?;
    ensure(picture.len() >= byte_count(text.size), SPACE)?;
    ensure(map.len() >= pixel_count(text.size), SPACE)?;
    judge_work(work, text.size)?;
    work.fill(0);
    judge_map(&text.rows, &text.map, text.method, text.depth)?;

    give_out(picture, &bytes_of(&text.rows, text.size.kind));
    give_out(map, &text.map.concat());
    Ok(info_of(&text))
}

/// Gives the picture at a wanted width and its size. Refuses what checking
/// refuses, and 7. The width may pass the largest side, up to m+g.
pub fn show(file: &[u8], width: usize, out: &mut [u8], work: &mut [u8]) -> Result<Size, Refusal> {
    let text = read_judged(file)?;
    judge_wanted_width(&text, width)?;
    let shown_size = Size { width, ..text.size };
    ensure(out.len() >= byte_count(shown_size), SPACE)?;
    judge_work(work, text.size)?;
    work.fill(0);
    judge_map(&text.rows, &text.map, text.method, text.depth)?;

    let shown = at_width(&text.rows, &text.map, width);
    give_out(out, &bytes_of(&shown, text.size.kind));
    Ok(shown_size)
}
