//! Bits and Huffman codes read, as deflate has them.

use super::error::Error;

/// The longest code.
const LONGEST: usize = 15;

/// Bits from the lowest of each byte.
pub struct BitsRead<'a> {
    bytes: &'a [u8],
    waiting: u32,
    count: u32,
}

impl<'a> BitsRead<'a> {
    pub fn of(bytes: &'a [u8]) -> BitsRead<'a> {
        BitsRead {
            bytes,
            waiting: 0,
            count: 0,
        }
    }

    /// Takes so many bits, at most 16, as a number: the first is the lowest.
    pub fn take(&mut self, count: u32) -> Result<usize, Error> {
        while self.count < count {
            let (byte, rest) = self.bytes.split_first().ok_or(Error::Short)?;
            self.waiting |= u32::from(*byte) << self.count;
            self.count += 8;
            self.bytes = rest;
        }
        let value = self.waiting & ((1 << count) - 1);
        self.waiting >>= count;
        self.count -= count;
        Ok(value as usize)
    }

    /// Leaves out what is left of a byte that was begun, and takes whole bytes.
    pub fn take_bytes(&mut self, count: usize) -> Result<&'a [u8], Error> {
        // Less than a whole byte waits, since no more is fetched than is taken.
        (self.waiting, self.count) = (0, 0);
        let (taken, rest) = self.bytes.split_at_checked(count).ok_or(Error::Short)?;
        self.bytes = rest;
        Ok(taken)
    }
}

/// The symbols by their codes: how many codes there are of each length, and the
/// symbols in the order of their codes.
pub struct Decoder {
    counts: [usize; LONGEST + 1],
    symbols: Vec<usize>,
}

impl Decoder {
    /// The codes of these lengths, 0 for a symbol that isn't used. They must fill
    /// their tree; only where no code is longer than 1 may one be missing.
    pub fn of(lengths: &[u8]) -> Result<Decoder, Error> {
        let mut counts = [0; LONGEST + 1];
        for length in lengths {
            counts[usize::from(*length)] += 1;
        }
        counts[0] = 0;
        let mut free = 1;
        for count in &counts[1..] {
            free = usize::checked_sub(2 * free, *count).ok_or(Error::Damaged(
                "its codes are more than their lengths allow",
            ))?;
        }
        if free > 0 && counts[2..].iter().any(|count| *count > 0) {
            return Err(Error::Damaged(
                "its codes are fewer than their lengths need",
            ));
        }
        let of_length = |length| {
            let used = lengths.iter().enumerate();
            used.filter_map(move |(symbol, own)| (usize::from(*own) == length).then_some(symbol))
        };
        let symbols = (1..=LONGEST).flat_map(of_length).collect();
        Ok(Decoder { counts, symbols })
    }

    /// Takes a symbol. The codes of a length follow, as numbers, those of the length
    /// before.
    pub fn take(&self, bits: &mut BitsRead) -> Result<usize, Error> {
        let (mut code, mut first, mut place) = (0, 0, 0);
        for count in &self.counts[1..] {
            code = code << 1 | bits.take(1)?;
            if code < first + count {
                return Ok(self.symbols[place + code - first]);
            }
            place += count;
            first = (first + count) << 1;
        }
        Err(Error::Damaged("a code stands for nothing"))
    }
}

#[cfg(test)]
mod tests {
    use super::*;

    #[test]
    fn bits_from_the_lowest() {
        let mut bits = BitsRead::of(&[0b1111_1011, 0xff, 0b111, 7, 8]);
        assert_eq!(bits.take(1), Ok(1));
        assert_eq!(bits.take(2), Ok(0b01));
        assert_eq!(bits.take(16), Ok(0xffff));
        assert_eq!(bits.take(0), Ok(0));
        assert_eq!(bits.take_bytes(2), Ok(&[7, 8][..]));
        assert_eq!(bits.take(1), Err(Error::Short));
        assert_eq!(bits.take_bytes(1), Err(Error::Short));
    }

    /// The example of RFC 1951, 3.2.2: lengths 3 3 3 3 3 2 4 4.
    #[test]
    fn codes_of_the_standard_example() {
        let decoder = Decoder::of(&[3, 3, 3, 3, 3, 2, 4, 4]).ok().unwrap();
        let codes = ["010", "011", "100", "101", "110", "00", "1110", "1111"];
        for (symbol, code) in codes.iter().enumerate() {
            let bit = |(at, bit): (usize, u8)| u8::from(bit == b'1') << at;
            let byte = code.bytes().enumerate().map(bit).sum();
            assert_eq!(decoder.take(&mut BitsRead::of(&[byte])), Ok(symbol));
        }
    }

    #[test]
    fn codes_fill_their_tree() {
        for good in [&[1, 1][..], &[1, 2, 3, 3], &[1, 0], &[0, 0], &[]] {
            assert!(Decoder::of(good).is_ok(), "{good:?}");
        }
        for bad in [&[1, 1, 1][..], &[1, 2, 2, 2], &[2, 2], &[1, 2], &[15]] {
            assert!(Decoder::of(bad).is_err(), "{bad:?}");
        }
        let alone = Decoder::of(&[1]).ok().unwrap();
        assert_eq!(alone.take(&mut BitsRead::of(&[0])), Ok(0));
        assert!(alone.take(&mut BitsRead::of(&[255, 255])).is_err());
    }
}
