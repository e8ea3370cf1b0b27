//! The parts of a PNG, one after the other.

use super::checksums;
use super::error::Error;

/// What stands after the parts taken so far.
pub struct Chunks<'a>(pub &'a [u8]);

/// A part: its name and its bytes.
pub struct Chunk<'a> {
    pub name: [u8; 4],
    pub bytes: &'a [u8],
}

impl<'a> Chunks<'a> {
    /// Takes the next part: its length, its name, its bytes and their checksum.
    pub fn next(&mut self) -> Result<Chunk<'a>, Error> {
        let length = u32::from_be_bytes(self.four()?);
        let length = usize::try_from(length).map_err(|_| Error::Short)?;
        let end = length.checked_add(4).ok_or(Error::Short)?;
        let (named, rest) = self.0.split_at_checked(end).ok_or(Error::Short)?;
        self.0 = rest;
        if u32::from_be_bytes(self.four()?) != checksums::crc(named) {
            return Err(Error::Damaged("the checksum of a part is wrong"));
        }
        let (name, bytes) = named.split_first_chunk().ok_or(Error::Short)?;
        Ok(Chunk { name: *name, bytes })
    }

    fn four(&mut self) -> Result<[u8; 4], Error> {
        let (four, rest) = self.0.split_first_chunk().ok_or(Error::Short)?;
        self.0 = rest;
        Ok(*four)
    }
}

impl Chunk<'_> {
    /// Whether a picture can't be shown without it: its name begins with a capital.
    pub fn is_critical(&self) -> bool {
        self.name[0].is_ascii_uppercase()
    }
}

#[cfg(test)]
mod tests {
    use super::*;

    const END: &[u8] = b"\0\0\0\0IEND\xae\x42\x60\x82";

    #[test]
    fn a_part_and_what_follows() {
        let file = [END, b"rest"].concat();
        let mut chunks = Chunks(&file);
        let end = chunks.next().ok().unwrap();
        assert_eq!(
            (&end.name, end.bytes, chunks.0),
            (b"IEND", &[][..], &b"rest"[..])
        );
        assert!(end.is_critical());
    }

    #[test]
    fn a_part_cut_short_or_changed() {
        for length in 0..END.len() {
            assert_eq!(Chunks(&END[..length]).next().err(), Some(Error::Short));
        }
        let long = [&[255; 4], &END[4..]].concat();
        assert_eq!(Chunks(&long).next().err(), Some(Error::Short));
        for at in 4..END.len() {
            let mut changed = END.to_vec();
            changed[at] ^= 1;
            let error = Chunks(&changed).next().err();
            assert!(matches!(error, Some(Error::Damaged(_))));
        }
    }
}
