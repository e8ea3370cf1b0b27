//! The symbols of deflate for lengths and distances: each stands for a range of
//! values, and extra bits say which.

/// A symbol, and the extra bits with their count.
pub struct Symbol {
    pub number: usize,
    pub extra: u16,
    pub count: u8,
}

/// The literals are 0 to 255, the end of a block is 256, lengths follow.
pub const END: usize = 256;
pub const LITERALS: usize = 286;
pub const DISTANCES: usize = 30;

/// The least length of each symbol from 257.
const LENGTHS: [u16; 29] = [
    3, 4, 5, 6, 7, 8, 9, 10, 11, 13, 15, 17, 19, 23, 27, 31, 35, 43, 51, 59, 67, 83, 99, 115, 131,
    163, 195, 227, 258,
];

/// The least distance of each symbol.
const DISTANCE_FROM: [u16; DISTANCES] = [
    1, 2, 3, 4, 5, 7, 9, 13, 17, 25, 33, 49, 65, 97, 129, 193, 257, 385, 513, 769, 1025, 1537,
    2049, 3073, 4097, 6145, 8193, 12289, 16385, 24577,
];

/// The symbol of a length, 3 to 258.
pub fn of_length(length: u16) -> Symbol {
    let place = LENGTHS.partition_point(|least| *least <= length) - 1;
    // The first eight have no extra bits, then every four have one more; the
    // last is 258 alone.
    let count = if place == 28 {
        0
    } else {
        place.saturating_sub(4) / 4
    };
    Symbol {
        number: END + 1 + place,
        extra: length - LENGTHS[place],
        count: count as u8,
    }
}

/// The symbol of a distance, 1 to 32768.
pub fn of_distance(distance: u16) -> Symbol {
    let number = DISTANCE_FROM.partition_point(|least| *least <= distance) - 1;
    Symbol {
        number,
        extra: distance - DISTANCE_FROM[number],
        // The first four have no extra bits, then every two have one more.
        count: (number.saturating_sub(2) / 2) as u8,
    }
}

/// The least length of a symbol over [`END`], and how many extra bits it has.
pub fn length_from(symbol: usize) -> Option<(u16, u32)> {
    let least = *LENGTHS.get(symbol.checked_sub(END + 1)?)?;
    Some((least, u32::from(of_length(least).count)))
}

/// The least distance of a symbol, and how many extra bits it has.
pub fn distance_from(symbol: usize) -> Option<(u16, u32)> {
    let least = *DISTANCE_FROM.get(symbol)?;
    Some((least, u32::from(of_distance(least).count)))
}

#[cfg(test)]
mod tests {
    use super::*;

    #[test]
    fn symbols_are_read_as_they_are_written() {
        for length in 3..=258 {
            let symbol = of_length(length);
            let least = length - symbol.extra;
            assert_eq!(
                length_from(symbol.number),
                Some((least, symbol.count.into()))
            );
        }
        for distance in 1..=32768 {
            let symbol = of_distance(distance);
            let least = distance - symbol.extra;
            assert_eq!(
                distance_from(symbol.number),
                Some((least, symbol.count.into()))
            );
        }
        assert_eq!((length_from(END), length_from(286)), (None, None));
        assert_eq!(distance_from(30), None);
    }

    /// The extra bits of each symbol just reach the next.
    #[test]
    fn extra_bits_fill_the_ranges() {
        for length in 3..=258 {
            let symbol = of_length(length);
            assert!(symbol.extra < 1 << symbol.count);
        }
        for distance in 1..=32768 {
            let symbol = of_distance(distance);
            assert!(symbol.extra < 1 << symbol.count);
        }
    }

    #[test]
    fn symbols_at_the_ends() {
        let length = |length| (of_length(length).number, of_length(length).count);
        assert_eq!((length(3), length(10)), ((257, 0), (264, 0)));
        assert_eq!(
            (length(11), length(257), length(258)),
            ((265, 1), (284, 5), (285, 0))
        );
        let distance = |far| (of_distance(far).number, of_distance(far).count);
        assert_eq!(
            (distance(1), distance(4), distance(5)),
            ((0, 0), (3, 0), (4, 1))
        );
        assert_eq!(distance(32768), (29, 13));
    }
}
