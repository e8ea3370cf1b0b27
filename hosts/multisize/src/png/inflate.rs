//! A zlib stream unpacked (RFC 1950 and 1951), into no more bytes than are expected.

use super::checksums;
use super::described;
use super::error::Error;
use super::huffman::{BitsRead, Decoder};
use super::symbols::{self, END};

/// What is unpacked so far, and how much it is to be.
struct Unpacked {
    bytes: Vec<u8>,
    expected: usize,
}

const SHORT: Error = Error::Damaged("it has fewer bytes than its size needs");
const LONG: Error = Error::Damaged("it has more bytes than its size needs");

/// The bytes of a zlib stream, which must be as many as are expected: no space is
/// made for more.
pub fn unpacked(stream: &[u8], expected: usize) -> Result<Vec<u8>, Error> {
    let (head, blocks) = stream.split_first_chunk().ok_or(Error::Short)?;
    // Deflate with a window of at most 32768 bytes, and no dictionary.
    let [method, flags] = *head;
    let good = u16::from_be_bytes(*head) % 31 == 0 && flags & 0x20 == 0;
    if method & 15 != 8 || method >> 4 > 7 || !good {
        return Err(Error::Damaged("its stream doesn't begin as zlib has it"));
    }
    let mut bits = BitsRead::of(blocks);
    let bytes = Vec::with_capacity(expected);
    let mut out = Unpacked { bytes, expected };
    while !out.block(&mut bits)? {}
    if out.bytes.len() < expected {
        return Err(SHORT);
    }
    if bits.take_bytes(4)? != checksums::adler(&out.bytes).to_be_bytes() {
        return Err(Error::Damaged("the checksum of its stream is wrong"));
    }
    Ok(out.bytes)
}

impl Unpacked {
    /// Unpacks a block and says whether it is the last.
    fn block(&mut self, bits: &mut BitsRead) -> Result<bool, Error> {
        let last = bits.take(1)? == 1;
        match bits.take(2)? {
            0 => self.stored(bits)?,
            1 => self.coded(bits, &described::fixed()?)?,
            2 => {
                let codes = described::own(bits)?;
                self.coded(bits, &codes)?;
            }
            _ => return Err(Error::Damaged("a block is of no kind")),
        }
        Ok(last)
    }

    /// A block of bytes as they are, after their count and its complement.
    fn stored(&mut self, bits: &mut BitsRead) -> Result<(), Error> {
        let head = bits.take_bytes(4)?;
        let count = u16::from_le_bytes([head[0], head[1]]);
        if count != !u16::from_le_bytes([head[2], head[3]]) {
            return Err(Error::Damaged("the length of a block is wrong"));
        }
        let bytes = bits.take_bytes(usize::from(count))?;
        self.space(bytes.len())?;
        self.bytes.extend_from_slice(bytes);
        Ok(())
    }

    /// A block of literals and repeats, with the codes of both.
    fn coded(&mut self, bits: &mut BitsRead, codes: &[Decoder; 2]) -> Result<(), Error> {
        let [literals, distances] = codes;
        loop {
            let symbol = literals.take(bits)?;
            if symbol == END {
                return Ok(());
            }
            if let Ok(byte) = u8::try_from(symbol) {
                self.space(1)?;
                self.bytes.push(byte);
                continue;
            }
            let (least, further) = symbols::length_from(symbol).ok_or(NOTHING)?;
            let length = usize::from(least) + bits.take(further)?;
            let symbol = distances.take(bits)?;
            let (least, further) = symbols::distance_from(symbol).ok_or(NOTHING)?;
            self.repeat(length, usize::from(least) + bits.take(further)?)?;
        }
    }

    /// So many bytes again as stood that far back. They may overlap.
    fn repeat(&mut self, length: usize, distance: usize) -> Result<(), Error> {
        self.space(length)?;
        let from = self.bytes.len().checked_sub(distance);
        let from = from.ok_or(Error::Damaged("a repeat reaches back too far"))?;
        for at in from..from + length {
            self.bytes.push(self.bytes[at]);
        }
        Ok(())
    }

    /// Judges whether so many bytes more are expected.
    fn space(&self, count: usize) -> Result<(), Error> {
        if count > self.expected - self.bytes.len() {
            return Err(LONG);
        }
        Ok(())
    }
}

const NOTHING: Error = Error::Damaged("a symbol stands for nothing");

#[cfg(test)]
mod tests {
    use super::*;
    use crate::png::deflate::zlib;

    const TEXT: &[u8] = b"a seam in a picture, a seam in a map, a map in a file";

    /// Bytes from their hexadecimal digits.
    fn bytes(digits: &str) -> Vec<u8> {
        let byte = |at: usize| u8::from_str_radix(&digits[at..at + 2], 16).unwrap();
        (0..digits.len()).step_by(2).map(byte).collect()
    }

    /// Streams that zlib 1.2.13 wrote: with the fixed codes, and stored.
    #[test]
    fn streams_of_zlib() {
        let fixed = "78014b54284e4dcc55c8cc53485428c84c2e292d4ad501321182b989053a100ac24fcbcc49\
            0500d6b41148";
        let stored = "7801013500caff61207365616d20696e206120706963747572652c2061207365616d20696e20\
            61206d61702c2061206d617020696e20612066696c65d6b41148";
        for stream in [fixed, stored] {
            assert_eq!(unpacked(&bytes(stream), TEXT.len()), Ok(TEXT.to_vec()));
        }
    }

    /// The same with codes of its own: the squares up to 39 with blanks between them.
    #[test]
    fn a_stream_of_zlib_with_codes_of_its_own() {
        let stream = "780105c10101c0400803312b2781b2d207ffc69614c21c0a3d7cc147cc0a55a116b2510e5d\
            e81e7a42eff1b5f9225c852dbc66fa9817d2435e787dbc356b71555c84aa8d6a0f6982ba07f5057d396\
            41b4deb0752ca1c05";
        let squares: Vec<String> = (0..40).map(|n| (n * n).to_string()).collect();
        let text = squares.join(" ").into_bytes();
        assert_eq!(unpacked(&bytes(stream), text.len()), Ok(text));
    }

    /// Blocks of several sorts, empty ones among them, and a long repeat.
    #[test]
    fn a_stream_of_many_blocks() {
        let stream = "78da4a54284e4dcc55c8cc53485428c84c2e292d4ad501321182b989053a100ac24fcbcc49\
            05000000ffff4a54284e4dcc55c8cc53485428c84c2e292d4ad501321182b989053a100ac24fcbcc490\
            5000000ffff531c0544030080c9493b";
        let text = [TEXT, TEXT, &[b'!'; 300]].concat();
        assert_eq!(unpacked(&bytes(stream), text.len()), Ok(text));
    }

    #[test]
    fn what_deflate_packs_is_unpacked() {
        for modulus in [1, 2, 7, 251, 65536] {
            let byte = |at: usize| (at * at % modulus + at / 1000) as u8;
            let bytes: Vec<u8> = (0..80_000).map(byte).collect();
            let stream = zlib(&bytes);
            assert_eq!(unpacked(&stream, bytes.len()), Ok(bytes));
        }
    }

    /// Other lengths than expected are refused, and the space isn't made longer.
    #[test]
    fn the_length_is_what_is_expected() {
        let stream = zlib(&[7; 100_000]);
        for expected in [0, 1, 258, 99_999] {
            assert_eq!(unpacked(&stream, expected), Err(LONG));
        }
        assert_eq!(unpacked(&stream, 100_001), Err(SHORT));
        let given = unpacked(&stream, 100_000).unwrap();
        assert_eq!((given.len(), given.capacity()), (100_000, 100_000));
    }

    #[test]
    fn broken_streams_are_refused() {
        let good = zlib(TEXT);
        for (at, name) in [(0, "head"), (1, "head"), (good.len() - 1, "checksum")] {
            let mut broken = good.clone();
            broken[at] ^= 1;
            assert!(unpacked(&broken, TEXT.len()).is_err(), "{name}");
        }
        for length in 0..good.len() {
            assert!(unpacked(&good[..length], TEXT.len()).is_err());
        }
        // No third sort of codes; a stored length that its complement doesn't confirm; a
        // repeat from before the first byte.
        for blocks in [&[0b111][..], &[1, 1, 0, 0, 0, 9], &[0b0000_0011, 0b10]] {
            let stream = [&[0x78, 0x01], blocks, &[0; 8]].concat();
            assert!(matches!(unpacked(&stream, 300), Err(Error::Damaged(_))));
        }
    }
}
