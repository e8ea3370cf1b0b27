//! Bytes as letters, base64.

const LETTERS: &[u8; 64] = b"ABCDEFGHIJKLMNOPQRSTUVWXYZabcdefghijklmnopqrstuvwxyz0123456789+/";

/// So many bytes stand in a line, which has 120 letters.
const LINE: usize = 90;

/// The letters of the bytes in lines, each with its end.
pub fn lines(bytes: &[u8]) -> String {
    let mut text = String::new();
    for line in bytes.chunks(LINE) {
        line.chunks(3).for_each(|three| put(&mut text, three));
        text.push('\n');
    }
    text
}

/// Puts four letters for three bytes. One byte has two letters, two have three, and
/// `=` fills up.
fn put(text: &mut String, bytes: &[u8]) {
    let byte = |at: usize| bytes.get(at).map_or(0, |byte| u32::from(*byte));
    let group = byte(0) << 16 | byte(1) << 8 | byte(2);
    for at in 0..4 {
        let letter = LETTERS[(group >> (18 - 6 * at)) as usize % 64];
        text.push(if at > bytes.len() { '=' } else { letter.into() });
    }
}

#[cfg(test)]
mod tests {
    use super::lines;

    #[test]
    fn known_texts() {
        let known = [
            ("f", "Zg=="),
            ("fo", "Zm8="),
            ("foo", "Zm9v"),
            ("foob", "Zm9vYg=="),
            ("fooba", "Zm9vYmE="),
            ("foobar", "Zm9vYmFy"),
        ];
        for (text, letters) in known {
            assert_eq!(lines(text.as_bytes()), format!("{letters}\n"));
        }
        assert_eq!(lines(&[0xfb, 0xff, 0xbf]), "+/+/\n");
    }

    #[test]
    fn lines_have_120_letters() {
        let text = lines(&[0; 100]);
        let lengths: Vec<usize> = text.lines().map(str::len).collect();
        assert_eq!(lengths, [120, 16]);
        assert_eq!(lines(b""), "");
    }
}
