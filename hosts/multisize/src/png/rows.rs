//! The rows of a PNG: filters taken back, bits unpacked, and the passes of an
//! interlaced picture put in their places.

use super::error::Error;
use super::filters;
use super::head::PngHead;

/// The pixels that come together: the first column and row, and the steps from one
/// to the next.
struct Pass {
    column: usize,
    row: usize,
    right: usize,
    down: usize,
}

const fn pass(column: usize, row: usize, right: usize, down: usize) -> Pass {
    Pass {
        column,
        row,
        right,
        down,
    }
}

const WHOLE: [Pass; 1] = [pass(0, 0, 1, 1)];

/// The seven passes of Adam7.
const INTERLACED: [Pass; 7] = [
    pass(0, 0, 8, 8),
    pass(4, 0, 8, 8),
    pass(0, 4, 4, 8),
    pass(2, 0, 4, 4),
    pass(0, 2, 2, 4),
    pass(1, 0, 2, 2),
    pass(0, 1, 1, 2),
];

impl Pass {
    fn columns(&self, head: &PngHead) -> usize {
        head.width.saturating_sub(self.column).div_ceil(self.right)
    }

    fn rows(&self, head: &PngHead) -> usize {
        head.height.saturating_sub(self.row).div_ceil(self.down)
    }

    /// The bytes of its rows, each after the number of its filter. A pass without
    /// columns has no rows either.
    fn bytes(&self, head: &PngHead) -> usize {
        match self.columns(head) {
            0 => 0,
            columns => (1 + head.row_bytes(columns)) * self.rows(head),
        }
    }
}

fn passes(head: &PngHead) -> &'static [Pass] {
    if head.interlaced {
        &INTERLACED
    } else {
        &WHOLE
    }
}

/// How many bytes the rows have, with the numbers of their filters.
pub fn packed_bytes(head: &PngHead) -> usize {
    passes(head).iter().map(|pass| pass.bytes(head)).sum()
}

/// The numbers of all samples in their places, from rows of just `packed_bytes`.
pub fn numbers(head: &PngHead, mut lines: Vec<u8>) -> Result<Vec<u8>, Error> {
    let channels = head.colour.channels();
    let mut numbers = vec![0; head.width * head.height * channels];
    let mut rest = lines.as_mut_slice();
    for pass in passes(head) {
        let (own, others) = rest.split_at_mut(pass.bytes(head));
        rest = others;
        if own.is_empty() {
            continue;
        }
        let length = head.row_bytes(pass.columns(head));
        take_filters_back(own, length, head.pixel_bytes())?;
        for (at, line) in own.chunks(1 + length).enumerate() {
            let row = pass.row + at * pass.down;
            for pixel in 0..pass.columns(head) {
                let column = pass.column + pixel * pass.right;
                let place = (row * head.width + column) * channels;
                for channel in 0..channels {
                    let sample = pixel * channels + channel;
                    numbers[place + channel] = number(&line[1..], sample, head.depth);
                }
            }
        }
    }
    Ok(numbers)
}

/// Rows of this length, each after the number of its filter, become as they were
/// before they were filtered.
fn take_filters_back(lines: &mut [u8], length: usize, pixel: usize) -> Result<(), Error> {
    let mut above = vec![0; length];
    for line in lines.chunks_mut(1 + length) {
        let (filter, line) = (line[0], &mut line[1..]);
        let back = filters::take_back(filter, line, &above, pixel);
        back.ok_or(Error::Damaged("a row has no such filter"))?;
        above.copy_from_slice(line);
    }
    Ok(())
}

/// A sample of a row, of 1, 2, 4 or 8 bits; the first stands highest in its byte.
fn number(line: &[u8], sample: usize, depth: usize) -> u8 {
    let bit = sample * depth;
    let mask = 255 >> (8 - depth);
    line[bit / 8] >> (8 - depth - bit % 8) & mask
}

#[cfg(test)]
mod tests {
    use super::super::head::Colour;
    use super::*;

    fn head(width: usize, height: usize, depth: usize, interlaced: bool) -> PngHead {
        PngHead {
            width,
            height,
            depth,
            colour: Colour::Grey,
            interlaced,
        }
    }

    #[test]
    fn samples_of_few_bits() {
        let line = [0b1001_0110, 0b1100_0000];
        let given = |depth, count| (0..count).map(|at| number(&line, at, depth)).collect();
        let one: Vec<u8> = given(1, 10);
        assert_eq!(one, [1, 0, 0, 1, 0, 1, 1, 0, 1, 1]);
        let two: Vec<u8> = given(2, 5);
        assert_eq!(two, [2, 1, 1, 2, 3]);
        let four: Vec<u8> = given(4, 3);
        assert_eq!(four, [9, 6, 12]);
    }

    /// The pattern of the PNG specification: which pass each pixel of 8 by 8 has.
    #[test]
    fn passes_by_the_standard_pattern() {
        let pattern = [
            "16462646", "77777777", "56565656", "77777777", "36463646", "77777777", "56565656",
            "77777777",
        ];
        let head = head(8, 8, 8, true);
        let mut lines = Vec::new();
        for (at, pass) in INTERLACED.iter().enumerate() {
            for _ in 0..pass.rows(&head) {
                lines.push(0);
                lines.extend(vec![b'1' + at as u8; pass.columns(&head)]);
            }
        }
        assert_eq!(lines.len(), packed_bytes(&head));
        let given = numbers(&head, lines).unwrap();
        assert_eq!(String::from_utf8(given).unwrap(), pattern.concat());
    }

    /// Passes that a small picture doesn't have take no byte.
    #[test]
    fn bytes_of_small_pictures() {
        assert_eq!(packed_bytes(&head(1, 1, 1, true)), 2);
        assert_eq!(packed_bytes(&head(1, 1, 8, false)), 2);
        assert_eq!(packed_bytes(&head(5, 1, 8, true)), 2 + 2 + 2 + 3);
        assert_eq!(packed_bytes(&head(1, 5, 8, true)), 2 + 2 + 2 + 4);
        assert_eq!(packed_bytes(&head(9, 2, 1, false)), 6);
    }

    #[test]
    fn an_unknown_filter_is_told() {
        let head = head(1, 1, 8, false);
        assert_eq!(numbers(&head, vec![4, 7]), Ok(vec![7]));
        assert!(numbers(&head, vec![5, 7]).is_err());
    }
}
