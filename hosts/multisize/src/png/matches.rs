//! Bytes as literals and repeats of what stood before (LZ77).

/// A byte as it is, or so many bytes as stood that far back.
#[derive(Clone, Copy, Debug, PartialEq, Eq)]
pub enum Token {
    Literal(u8),
    Repeat { length: u16, distance: u16 },
}

/// How far back a repeat may reach, how long it is at least and at most, and how
/// many places are tried.
const FARTHEST: usize = 32768;
const SHORTEST: usize = 3;
const LONGEST: usize = 258;
const TRIES: usize = 96;
/// A repeat of three bytes from farther than this takes more bits than literals.
const FARTHEST_OF_SHORTEST: usize = 4096;

/// No place.
const NONE: u32 = u32::MAX;

/// The bytes, and chains of the places before where the same three bytes may stand.
struct Chains<'a> {
    bytes: &'a [u8],
    last: Vec<u32>,
    before: Vec<u32>,
}

/// The tokens of the bytes. A repeat waits where the next place has a longer one.
pub fn tokens(bytes: &[u8]) -> Vec<Token> {
    let mut chains = Chains::new(bytes);
    let mut tokens = Vec::new();
    let mut at = 0;
    while at < bytes.len() {
        let (length, distance) = chains.longest(at);
        chains.enter(at);
        if length == 0 || chains.longest(at + 1).0 > length {
            tokens.push(Token::Literal(bytes[at]));
            at += 1;
            continue;
        }
        tokens.push(Token::Repeat {
            length: length as u16,
            distance: distance as u16,
        });
        (at + 1..at + length).for_each(|place| chains.enter(place));
        at += length;
    }
    tokens
}

impl Chains<'_> {
    fn new(bytes: &[u8]) -> Chains<'_> {
        Chains {
            bytes,
            last: vec![NONE; 1 << 15],
            before: vec![NONE; bytes.len()],
        }
    }

    /// The chain of the three bytes at a place, if there are three.
    fn chain(&self, at: usize) -> Option<usize> {
        let three = self.bytes.get(at..at + SHORTEST)?;
        let number = u32::from_le_bytes([three[0], three[1], three[2], 0]);
        Some((number.wrapping_mul(0x9e37_79b1) >> 17) as usize)
    }

    /// Puts a place at the head of its chain.
    fn enter(&mut self, at: usize) {
        if let Some(chain) = self.chain(at) {
            // A file of pixels is far below 4 GB.
            self.before[at] = std::mem::replace(&mut self.last[chain], at as u32);
        }
    }

    /// Length and distance of the longest repeat at a place, the nearest of equals;
    /// length 0 where there is none.
    fn longest(&self, at: usize) -> (usize, usize) {
        let (mut length, mut distance) = (0, 0);
        let mut place = self.chain(at).map_or(NONE, |chain| self.last[chain]);
        for _ in 0..TRIES {
            let far = at.wrapping_sub(place as usize);
            if place == NONE || far > FARTHEST {
                break;
            }
            let same = self.alike(at, place as usize);
            let least = if far > FARTHEST_OF_SHORTEST {
                SHORTEST + 1
            } else {
                SHORTEST
            };
            if same >= least && same > length {
                (length, distance) = (same, far);
            }
            place = self.before[place as usize];
        }
        (length, distance)
    }

    /// How many bytes are the same from two places on.
    fn alike(&self, at: usize, place: usize) -> usize {
        let ahead = self.bytes[at..].iter().zip(&self.bytes[place..]);
        ahead.take(LONGEST).take_while(|(a, b)| a == b).count()
    }
}

#[cfg(test)]
mod tests {
    use super::*;

    fn expanded(tokens: &[Token]) -> Vec<u8> {
        let mut bytes = Vec::new();
        for token in tokens {
            match *token {
                Token::Literal(byte) => bytes.push(byte),
                Token::Repeat { length, distance } => {
                    for _ in 0..length {
                        bytes.push(bytes[bytes.len() - usize::from(distance)]);
                    }
                }
            }
        }
        bytes
    }

    #[test]
    fn repeats_by_hand() {
        use Token::{Literal, Repeat};
        assert_eq!(tokens(b""), []);
        assert_eq!(tokens(b"ab"), [Literal(b'a'), Literal(b'b')]);
        let repeat = |length, distance| Repeat { length, distance };
        assert_eq!(tokens(b"aaaaaa"), [Literal(b'a'), repeat(5, 1)]);
        let given = tokens(b"abcabcabd");
        let start = [Literal(b'a'), Literal(b'b'), Literal(b'c')];
        assert_eq!(
            given,
            [start.as_slice(), &[repeat(5, 3), Literal(b'd')]].concat()
        );
    }

    #[test]
    fn tokens_give_the_bytes_back() {
        for modulus in [1, 2, 7, 251, 65536] {
            let byte = |at: usize| (at * at % modulus + at / 1000) as u8;
            let bytes: Vec<u8> = (0..80_000).map(byte).collect();
            assert_eq!(expanded(&tokens(&bytes)), bytes);
        }
    }

    /// The same start comes again just as far back as is allowed, and one farther.
    #[test]
    fn lengths_and_distances_reach_their_limits() {
        let repeat = |distance| Token::Repeat {
            length: 258,
            distance,
        };
        for (far, found) in [(32768, true), (32769, false)] {
            let mut bytes = vec![0; far + 300];
            bytes[..10].copy_from_slice(b"qwertyuiop");
            bytes.copy_within(..10, far);
            let tokens = tokens(&bytes);
            assert_eq!(tokens.contains(&repeat(32768)), found);
            for token in &tokens {
                if let Token::Repeat { length, distance } = token {
                    assert!((3..=258).contains(length) && (1..=32768).contains(distance));
                }
            }
            assert_eq!(expanded(&tokens), bytes);
        }
    }
}
