//! The programs `seams` and `fit`: what they write for an input.

use crate::energy::{EnergyRule, Method};
use crate::file::{build, judge_wanted_width, read_judged, show};
use crate::netpbm::{read_header, split_at_line_end, write_netpbm};
use crate::picture::{byte_count, judge_picture, pixel_count, work_needed, Size};
use crate::refusal::{ensure, Refusal, SPACE};
use crate::text::read_number;

/// The most pixels that a program reads, and the most that it writes.
const MOST_PIXELS: usize = 1_024;

/// The most bytes of input. More are refused by 8 ahead of every other number.
const MOST_INPUT: usize = 65_536;

/// Output space for a file of 1,024 pixels: `(255 255 255)` with a blank and
/// a map number with a blank take at most 18 bytes a pixel, and no line adds
/// more than 32 bytes of its own.
const TEXT_SPACE: usize = 18 * MOST_PIXELS + 32 * (2 * MOST_PIXELS + 5);

/// What `seams` writes for an input.
pub fn seams_program(input: &[u8]) -> Vec<u8> {
    written(seams(input))
}

/// What `fit` writes for an input.
pub fn fit_program(input: &[u8]) -> Vec<u8> {
    written(fit(input))
}

/// The answer, or the refusal as `(refused 8)` and a line end.
fn written(answer: Result<Vec<u8>, Refusal>) -> Vec<u8> {
    match answer {
        Ok(bytes) => bytes,
        Err(number) => format!("(refused {})\n", number).into_bytes(),
    }
}

/// Reads a Netpbm picture and writes the file with energy `edge`, k = m−1 and
/// g = m/2 rounded down.
fn seams(input: &[u8]) -> Result<Vec<u8>, Refusal> {
    ensure(input.len() <= MOST_INPUT, SPACE)?;
    let (size, samples) = read_header(input)?;
    judge_picture(samples, size)?;
    ensure(pixel_count(size) <= MOST_PIXELS, SPACE)?;

    let mut out = vec![0; TEXT_SPACE];
    let mut work = vec![0; work_needed(size)];
    let method = Method {
        energy: EnergyRule::Edge,
    };
    let (depth, growth) = (size.width - 1, size.width / 2);
    let length = build(samples, size, method, depth, growth, &mut out, &mut work)?;
    out.truncate(length);
    Ok(out)
}

/// Reads a line with a width and a file, and writes the picture at that width.
fn fit(input: &[u8]) -> Result<Vec<u8>, Refusal> {
    ensure(input.len() <= MOST_INPUT, SPACE)?;
    let (line, file) = split_at_line_end(input)?;
    let width = read_number(line)?;
    let text = read_judged(file)?;
    judge_wanted_width(&text, width)?;
    let shown_size = Size { width, ..text.size };
    ensure(pixel_count(text.size) <= MOST_PIXELS, SPACE)?;
    ensure(pixel_count(shown_size) <= MOST_PIXELS, SPACE)?;

    let mut out = vec![0; byte_count(shown_size)];
    let mut work = vec![0; work_needed(text.size)];
    let size = show(file, width, &mut out, &mut work)?;
    Ok(write_netpbm(size, &out))
}
