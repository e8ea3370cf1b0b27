//! Huffman codes with a largest length, as deflate has them.

use std::cmp::Reverse;
use std::collections::BinaryHeap;

/// The code of each symbol: its bits, the first to write lowest, and their count,
/// which is 0 for a symbol that isn't used.
pub struct Codes(pub Vec<(u16, u8)>);

/// The lengths of the codes, none over the largest length. At least two symbols get
/// a code, so that the codes are complete.
pub fn lengths(counts: &[u32], largest: u8) -> Vec<u8> {
    let mut counts = counts.to_vec();
    for at in 0..2 {
        if counts.iter().filter(|count| **count > 0).count() < 2 {
            counts[at] = counts[at].max(1);
        }
    }
    loop {
        let depths = depths(&counts);
        if depths.iter().all(|depth| *depth <= largest) {
            return depths;
        }
        // Counts that differ less give depths that differ less; when all are 1,
        // none is over 9.
        counts
            .iter_mut()
            .for_each(|count| *count = count.div_ceil(2));
    }
}

/// How deep each symbol stands in the Huffman tree of the counts.
fn depths(counts: &[u32]) -> Vec<u8> {
    let used = (0..counts.len()).filter(|symbol| counts[*symbol] > 0);
    let mut heap: BinaryHeap<_> = used
        .map(|symbol| Reverse((counts[symbol], symbol)))
        .collect();
    let mut parents = vec![0; counts.len()];
    while let (Some(Reverse((one, left))), Some(Reverse((other, right)))) = (heap.pop(), heap.pop())
    {
        let node = parents.len();
        parents.push(0);
        (parents[left], parents[right]) = (node, node);
        heap.push(Reverse((one + other, node)));
    }
    let mut depths = vec![0; parents.len()];
    // A parent has the higher number. The last one is the root.
    for node in (0..parents.len()).rev().filter(|node| parents[*node] > 0) {
        depths[node] = depths[parents[node]] + 1;
    }
    depths.truncate(counts.len());
    depths
}

impl Codes {
    /// The codes with these lengths: shorter ones first, then by symbol.
    pub fn of(lengths: &[u8]) -> Codes {
        let mut codes = vec![(0, 0); lengths.len()];
        let mut next = 0u16;
        for length in 1..=15 {
            next <<= 1;
            for (symbol, own) in lengths.iter().enumerate() {
                if *own == length {
                    codes[symbol] = (next.reverse_bits() >> (16 - length), length);
                    next += 1;
                }
            }
        }
        Codes(codes)
    }
}

#[cfg(test)]
mod tests {
    use super::*;

    /// A complete code fills its tree.
    fn filled(lengths: &[u8]) -> bool {
        let used = lengths.iter().filter(|length| **length > 0);
        used.map(|length| 1 << (15 - length)).sum::<u32>() == 1 << 15
    }

    #[test]
    fn lengths_follow_the_counts() {
        assert_eq!(lengths(&[4, 1, 2, 0, 1], 15), [1, 3, 2, 0, 3]);
        assert_eq!(lengths(&[5, 5, 5, 5], 15), [2, 2, 2, 2]);
    }

    #[test]
    fn two_symbols_get_a_code_at_least() {
        assert_eq!(lengths(&[0, 0, 0], 15), [1, 1, 0]);
        assert_eq!(lengths(&[9, 0, 0], 15), [1, 1, 0]);
        assert_eq!(lengths(&[0, 0, 9], 15), [1, 0, 1]);
    }

    #[test]
    fn no_length_is_over_the_largest() {
        // Fibonacci numbers make the deepest tree.
        let mut counts = vec![1, 1];
        while counts.len() < 30 {
            counts.push(counts[counts.len() - 1] + counts[counts.len() - 2]);
        }
        assert!(depths(&counts).iter().any(|depth| *depth > 15));
        for (count, largest) in [(30, 15), (19, 7)] {
            let given = lengths(&counts[..count], largest);
            assert!(filled(&given));
            assert!(given.iter().all(|length| (1..=largest).contains(length)));
        }
    }

    #[test]
    fn codes_of_the_standard_example() {
        // The example of RFC 1951, 3.2.2: lengths 3 3 3 3 3 2 4 4.
        let codes = Codes::of(&[3, 3, 3, 3, 3, 2, 4, 4]).0;
        let written = |(bits, count): (u16, u8)| bits.reverse_bits() >> (16 - count);
        let values: Vec<u16> = codes.into_iter().map(written).collect();
        assert_eq!(
            values,
            [0b010, 0b011, 0b100, 0b101, 0b110, 0b00, 0b1110, 0b1111]
        );
    }
}
