//! The two checksums: CRC-32 of a part of a PNG, Adler-32 of what is compressed.

/// CRC-32 as PNG has it: bits from the lowest, all of them turned before and after.
pub fn crc(bytes: &[u8]) -> u32 {
    !bytes.iter().fold(!0, |sum, byte| {
        CRC_OF_BYTE[usize::from(sum as u8 ^ byte)] ^ (sum >> 8)
    })
}

/// What each byte adds.
const CRC_OF_BYTE: [u32; 256] = {
    let mut table = [0; 256];
    let mut byte = 0;
    while byte < 256 {
        let (mut sum, mut bit) = (byte as u32, 0);
        while bit < 8 {
            sum = (sum >> 1) ^ if sum & 1 == 1 { 0xedb8_8320 } else { 0 };
            bit += 1;
        }
        table[byte] = sum;
        byte += 1;
    }
    table
};

/// Adler-32: the sum of the bytes and 1, and the sum of these sums, both modulo
/// 65521.
pub fn adler(bytes: &[u8]) -> u32 {
    let (low, high) = bytes.iter().fold((1, 0), |(low, high), byte| {
        let low = (low + u32::from(*byte)) % 65521;
        (low, (high + low) % 65521)
    });
    high << 16 | low
}

#[cfg(test)]
mod tests {
    use super::*;

    #[test]
    fn crc_of_known_bytes() {
        assert_eq!(crc(b""), 0);
        assert_eq!(crc(b"IEND"), 0xae42_6082);
        assert_eq!(crc(b"123456789"), 0xcbf4_3926);
    }

    #[test]
    fn adler_of_known_bytes() {
        assert_eq!(adler(b""), 1);
        assert_eq!(adler(b"Wikipedia"), 0x11e6_0398);
        assert_eq!(adler(b"123456789"), 0x091e_01de);
        assert_eq!(adler(&[255; 100_000]), 0x149a_302c);
    }
}
