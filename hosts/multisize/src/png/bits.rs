//! Bits written one after the other, from the lowest of each byte.

/// The bytes written so far, and the bits that fill no byte yet.
#[derive(Default)]
pub struct Bits {
    bytes: Vec<u8>,
    waiting: u64,
    count: u8,
}

impl Bits {
    /// Puts the lowest bits of a value, at most 16 of them; the others are 0.
    pub fn put(&mut self, value: u16, count: u8) {
        self.waiting |= u64::from(value) << self.count;
        self.count += count;
        while self.count >= 8 {
            self.bytes.push(self.waiting as u8);
            self.waiting >>= 8;
            self.count -= 8;
        }
    }

    /// All bytes, the last one filled up with zeros.
    pub fn finished(mut self) -> Vec<u8> {
        if self.count > 0 {
            self.bytes.push(self.waiting as u8);
        }
        self.bytes
    }
}

#[cfg(test)]
mod tests {
    use super::Bits;

    #[test]
    fn bits_fill_bytes_from_the_lowest() {
        let mut bits = Bits::default();
        bits.put(0b1, 1);
        bits.put(0b01, 2);
        bits.put(0xffff, 16);
        bits.put(0, 0);
        assert_eq!(bits.finished(), [0b1111_1011, 0xff, 0b111]);
        assert!(Bits::default().finished().is_empty());
    }
}
