//! Bytes compressed as PNG wants them: a zlib stream of deflate blocks, each with
//! Huffman codes of its own.

use super::bits::Bits;
use super::checksums;
use super::codes::{self, Codes};
use super::matches::{self, Token};
use super::symbols::{self, Symbol, DISTANCES, END, LITERALS};

/// So many tokens share their codes.
const BLOCK: usize = 1 << 15;

/// The order in which the lengths of the code lengths' own codes are written.
pub const ORDER: [usize; 19] = [
    16, 17, 18, 0, 8, 7, 9, 6, 10, 5, 11, 4, 12, 3, 13, 2, 14, 1, 15,
];

/// The zlib stream of the bytes.
pub fn zlib(bytes: &[u8]) -> Vec<u8> {
    let tokens = matches::tokens(bytes);
    let mut bits = Bits::default();
    // Deflate with a window of 32768 bytes; the second byte makes both a multiple
    // of 31.
    bits.put(0x78, 8);
    bits.put(0xda, 8);
    let last = tokens.len().saturating_sub(1) / BLOCK;
    for (at, block) in tokens.chunks(BLOCK).enumerate() {
        bits.put(u16::from(at == last), 1);
        put_block(&mut bits, block);
    }
    let mut stream = bits.finished();
    stream.extend(checksums::adler(bytes).to_be_bytes());
    stream
}

/// A block: that its codes are its own, the codes, the tokens, its end.
fn put_block(bits: &mut Bits, tokens: &[Token]) {
    let (literals, distances) = counts(tokens);
    let literals = codes::lengths(&literals, 15);
    let distances = codes::lengths(&distances, 15);
    bits.put(2, 2);
    put_lengths(bits, &literals, &distances);
    let (literals, distances) = (Codes::of(&literals), Codes::of(&distances));
    for token in tokens {
        match *token {
            Token::Literal(byte) => put_code(bits, &literals, usize::from(byte)),
            Token::Repeat { length, distance } => {
                put_symbol(bits, &literals, &symbols::of_length(length));
                put_symbol(bits, &distances, &symbols::of_distance(distance));
            }
        }
    }
    put_code(bits, &literals, END);
}

/// How often each symbol stands in the block.
fn counts(tokens: &[Token]) -> (Vec<u32>, Vec<u32>) {
    let (mut literals, mut distances) = (vec![0; LITERALS], vec![0; DISTANCES]);
    for token in tokens {
        match *token {
            Token::Literal(byte) => literals[usize::from(byte)] += 1,
            Token::Repeat { length, distance } => {
                literals[symbols::of_length(length).number] += 1;
                distances[symbols::of_distance(distance).number] += 1;
            }
        }
    }
    literals[END] = 1;
    (literals, distances)
}

fn put_code(bits: &mut Bits, codes: &Codes, symbol: usize) {
    let (code, count) = codes.0[symbol];
    bits.put(code, count);
}

fn put_symbol(bits: &mut Bits, codes: &Codes, symbol: &Symbol) {
    put_code(bits, codes, symbol.number);
    bits.put(symbol.extra, symbol.count);
}

/// The lengths of a block's codes, which have codes themselves.
fn put_lengths(bits: &mut Bits, literals: &[u8], distances: &[u8]) {
    let runs = runs(&[literals, distances].concat());
    let mut counts = [0; 19];
    runs.iter().for_each(|run| counts[run.number] += 1);
    let own = codes::lengths(&counts, 7);
    // How many of each there are: literals and lengths less 257, distances less 1,
    // the codes of lengths less 4. All are written.
    bits.put((literals.len() - 257) as u16, 5);
    bits.put((distances.len() - 1) as u16, 5);
    bits.put(19 - 4, 4);
    ORDER.iter().for_each(|at| bits.put(u16::from(own[*at]), 3));
    let own = Codes::of(&own);
    runs.iter().for_each(|run| put_symbol(bits, &own, run));
}

/// Lengths as symbols: 16 is the one before 3 to 6 times again, 17 and 18 are 3 to
/// 10 and 11 to 138 zeros.
fn runs(lengths: &[u8]) -> Vec<Symbol> {
    let mut runs = Vec::new();
    for run in lengths.chunk_by(|one, other| one == other) {
        let mut left = run.len();
        while left > 0 {
            let again = run[0] > 0 && left < run.len();
            let (number, least, most, count) = match (run[0], left) {
                (0, 11..) => (18, 11, 138, 7),
                (0, 3..) => (17, 3, 10, 3),
                (_, 3..) if again => (16, 3, 6, 2),
                (length, _) => (usize::from(length), 1, 1, 0),
            };
            let taken = left.min(most);
            let extra = (taken - least) as u16;
            runs.push(Symbol {
                number,
                extra,
                count,
            });
            left -= taken;
        }
    }
    runs
}

#[cfg(test)]
mod tests {
    use super::*;

    #[test]
    fn runs_of_lengths() {
        let given = |lengths: &[u8]| {
            let symbols = runs(lengths).into_iter();
            symbols.map(|s| (s.number, s.extra)).collect::<Vec<_>>()
        };
        assert_eq!(given(&[0, 0]), [(0, 0), (0, 0)]);
        assert_eq!(given(&[0; 10]), [(17, 7)]);
        assert_eq!(given(&[0; 11]), [(18, 0)]);
        assert_eq!(given(&[0; 140]), [(18, 127), (0, 0), (0, 0)]);
        assert_eq!(given(&[5; 3]), [(5, 0), (5, 0), (5, 0)]);
        assert_eq!(given(&[5; 4]), [(5, 0), (16, 0)]);
        assert_eq!(given(&[5; 8]), [(5, 0), (16, 3), (5, 0)]);
        assert_eq!(given(&[2, 0, 0, 0, 2]), [(2, 0), (17, 0), (2, 0)]);
    }

    #[test]
    fn a_stream_begins_and_ends_as_zlib_has_it() {
        let stream = zlib(b"123456789");
        assert_eq!(stream[..2], [0x78, 0xda]);
        assert_eq!(u16::from_be_bytes([stream[0], stream[1]]) % 31, 0);
        assert!(stream.ends_with(&[0x09, 0x1e, 0x01, 0xde]));
    }

    #[test]
    fn repeated_bytes_become_few() {
        assert!(zlib(&[7; 100_000]).len() < 300);
    }
}
