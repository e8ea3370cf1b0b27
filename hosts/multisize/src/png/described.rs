//! The codes of a block: fixed ones, or those that it describes.

use super::deflate::ORDER;
use super::error::Error;
use super::huffman::{BitsRead, Decoder};
use super::symbols::{DISTANCES, END, LITERALS};

/// The codes that need no description.
pub fn fixed() -> Result<[Decoder; 2], Error> {
    let runs = [(8, 144), (9, 112), (7, 24), (8, 8)];
    let lengths = runs.map(|(length, count)| vec![length; count]).concat();
    Ok([Decoder::of(&lengths)?, Decoder::of(&[5; 32])?])
}

/// The codes of literals and of distances that a block describes, by codes of their
/// lengths.
pub fn own(bits: &mut BitsRead) -> Result<[Decoder; 2], Error> {
    let (literals, distances) = (bits.take(5)? + 257, bits.take(5)? + 1);
    let described = bits.take(4)? + 4;
    if literals > LITERALS || distances > DISTANCES {
        return Err(Error::Damaged("a block has more codes than there are"));
    }
    let mut lengths = [0; 19];
    for at in &ORDER[..described] {
        lengths[*at] = bits.take(3)? as u8;
    }
    let lengths = described_lengths(bits, &Decoder::of(&lengths)?, literals + distances)?;
    if lengths[END] == 0 {
        return Err(Error::Damaged("a block can't end"));
    }
    let (literals, distances) = lengths.split_at(literals);
    Ok([Decoder::of(literals)?, Decoder::of(distances)?])
}

/// So many lengths: 16 is the one before 3 to 6 times again, 17 and 18 are 3 to 10
/// and 11 to 138 zeros.
fn described_lengths(bits: &mut BitsRead, codes: &Decoder, count: usize) -> Result<Vec<u8>, Error> {
    const WRONG: Error = Error::Damaged("the lengths of a block's codes are wrong");
    let mut lengths = Vec::new();
    while lengths.len() < count {
        let (length, times) = match codes.take(bits)? {
            16 => (*lengths.last().ok_or(WRONG)?, 3 + bits.take(2)?),
            17 => (0, 3 + bits.take(3)?),
            18 => (0, 11 + bits.take(7)?),
            length => (length as u8, 1),
        };
        if times > count - lengths.len() {
            return Err(WRONG);
        }
        lengths.extend(std::iter::repeat_n(length, times));
    }
    Ok(lengths)
}
