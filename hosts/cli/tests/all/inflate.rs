//! Deflate read, as RFC 1951 says.

/// Bits from the lowest of each byte.
struct Bits<'a> {
    bytes: &'a [u8],
    at: usize,
}

impl Bits<'_> {
    fn take(&mut self, count: usize) -> usize {
        let mut value = 0;
        for place in 0..count {
            let bit = self.bytes[self.at / 8] >> (self.at % 8) & 1;
            value |= usize::from(bit) << place;
            self.at += 1;
        }
        value
    }

    /// A symbol by the lengths of the codes: the codes of a length follow those of
    /// the length before.
    fn symbol(&mut self, lengths: &[usize]) -> usize {
        let (mut code, mut first, mut length) = (0, 0, 0);
        loop {
            code = code << 1 | self.take(1);
            length += 1;
            assert!(length <= 15);
            let own: Vec<usize> = (0..lengths.len())
                .filter(|s| lengths[*s] == length)
                .collect();
            if code < first + own.len() {
                return own[code - first];
            }
            first = (first + own.len()) << 1;
        }
    }

    /// The lengths of the codes of literals and of distances.
    fn codes(&mut self) -> (Vec<usize>, Vec<usize>) {
        let (literals, distances) = (self.take(5) + 257, self.take(5) + 1);
        let given = self.take(4) + 4;
        let order = [
            16, 17, 18, 0, 8, 7, 9, 6, 10, 5, 11, 4, 12, 3, 13, 2, 14, 1, 15,
        ];
        let mut own = [0; 19];
        order[..given].iter().for_each(|at| own[*at] = self.take(3));
        let mut lengths = Vec::new();
        while lengths.len() < literals + distances {
            let (length, times) = match self.symbol(&own) {
                16 => (lengths[lengths.len() - 1], 3 + self.take(2)),
                17 => (0, 3 + self.take(3)),
                18 => (0, 11 + self.take(7)),
                length => (length, 1),
            };
            lengths.extend(std::iter::repeat_n(length, times));
        }
        assert_eq!(lengths.len(), literals + distances);
        let distances = lengths.split_off(literals);
        (lengths, distances)
    }
}

/// The value of a symbol of a length or distance: the least value, and how many of
/// the first symbols have no further bits and share their number of bits.
fn value(bits: &mut Bits, symbol: usize, least: usize, shared: usize) -> usize {
    let further = (symbol / shared).saturating_sub(1);
    let from = (symbol - further * shared) << further;
    least + from + bits.take(further)
}

/// The bytes of deflate blocks, of the kind with codes of their own.
pub fn inflated(blocks: &[u8]) -> Vec<u8> {
    let mut bits = Bits {
        bytes: blocks,
        at: 0,
    };
    let mut bytes: Vec<u8> = Vec::new();
    loop {
        let last = bits.take(1) == 1;
        assert_eq!(bits.take(2), 2);
        let (literals, distances) = bits.codes();
        loop {
            let length = match bits.symbol(&literals) {
                byte @ 0..=255 => {
                    bytes.push(byte as u8);
                    continue;
                }
                256 => break,
                285 => 258,
                symbol => value(&mut bits, symbol - 257, 3, 4),
            };
            let symbol = bits.symbol(&distances);
            let distance = value(&mut bits, symbol, 1, 2);
            for _ in 0..length {
                bytes.push(bytes[bytes.len() - distance]);
            }
        }
        if last {
            break;
        }
    }
    assert_eq!(bits.at.div_ceil(8), blocks.len());
    bytes
}
