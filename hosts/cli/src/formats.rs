//! Formats of pictures by their first bytes, and how other programs turn them into
//! what is read.

use multisize::LARGEST_SIDE;
use std::env;
use std::ffi::{OsStr, OsString};
use std::os::unix::ffi::OsStrExt;

/// A format that isn't read as it is.
pub struct Format {
    pub name: &'static str,
    /// The program that turns it into Netpbm, and what it wants after the file's name.
    program: &'static str,
    options: &'static str,
}

/// Where bytes stand that tell a format, these bytes, its name, and the program.
type Sign = (usize, &'static [u8], &'static str, &'static str);

const SIGNS: [Sign; 19] = [
    (0, b"\x89PNG\r\n\x1a\n", "PNG", "pngtopnm"),
    (0, b"\xff\xd8\xff", "JPEG", "jpegtopnm"),
    (0, b"GIF8", "GIF", "giftopnm"),
    (0, b"BM", "BMP", "bmptopnm"),
    (0, b"II*\0", "TIFF", "tifftopnm"),
    (0, b"MM\0*", "TIFF", "tifftopnm"),
    (8, b"WEBP", "WebP", "dwebp"),
    (4, b"ftypavif", "AVIF", "magick"),
    (4, b"ftyphei", "HEIF", "magick"),
    (4, b"ftypmif1", "HEIF", "magick"),
    (0, b"\xff\x0a", "JPEG XL", "magick"),
    (4, b"JXL \r\n", "JPEG XL", "magick"),
    (0, b"%PDF", "PDF", "magick"),
    (0, b"<svg", "SVG", "magick"),
    (0, b"P1", "Netpbm of another sort (P1)", "pamdepth 255"),
    (0, b"P2", "Netpbm of another sort (P2)", "pamdepth 255"),
    (0, b"P3", "Netpbm of another sort (P3)", "pamdepth 255"),
    (0, b"P4", "Netpbm of another sort (P4)", "pamdepth 255"),
    (0, b"P7", "Netpbm of another sort (P7)", "pamtopnm"),
];

/// The format of bytes, where their start tells it.
pub fn of(bytes: &[u8]) -> Option<Format> {
    let told = |sign: &&Sign| {
        bytes
            .get(sign.0..)
            .is_some_and(|rest| rest.starts_with(sign.1))
    };
    let (_, _, name, program) = *SIGNS.iter().find(told)?;
    let options = match program {
        "dwebp" => " -ppm -o -",
        "magick" => " ppm:-",
        _ => "",
    };
    Some(Format {
        name,
        program,
        options,
    })
}

impl Format {
    /// The pipe that does the same with a file of this format. Netpbm of another sort
    /// keeps its size; anything else is made small enough.
    pub fn pipe(&self, file: &OsStr) -> String {
        let steps = if self.name.starts_with("Netpbm") {
            vec![]
        } else {
            vec![fitted()]
        };
        self.pipe_with(file, steps)
    }

    /// The pipe with these steps between the program that reads it and the command.
    fn pipe_with(&self, file: &OsStr, steps: Vec<String>) -> String {
        let Format {
            program, options, ..
        } = self;
        let name = file_word(file, !options.is_empty());
        let first = format!("{program}{name}{options}");
        pipe([vec![first], steps].concat(), file)
    }
}

/// PNG, for those that aren't read.
const PNG: Format = Format {
    name: "PNG",
    program: "pngtopnm",
    options: "",
};

/// The pipe for a PNG that is too large.
pub fn smaller_png(file: &OsStr) -> String {
    PNG.pipe(file)
}

/// The pipe for a PNG with 16 bits or transparency, and perhaps too large as well.
pub fn plain_png(file: &OsStr, large: bool) -> String {
    let mut steps = vec![EIGHT_BITS.to_string()];
    steps.extend(large.then(fitted));
    PNG.pipe_with(file, steps)
}

/// The pipe for a Netpbm picture that is too large.
pub fn smaller(file: &OsStr) -> String {
    pipe(vec![fitted() + &file_word(file, false)], file)
}

/// The pipe for a Netpbm picture whose samples go past 255.
pub fn eight_bits(file: &OsStr) -> String {
    pipe(vec![EIGHT_BITS.to_string() + &file_word(file, false)], file)
}

/// The step that makes a picture small enough, and the one that gives it 8 bits.
fn fitted() -> String {
    format!("pamscale -xyfit {LARGEST_SIDE} {LARGEST_SIDE}")
}
const EIGHT_BITS: &str = "pamdepth 255";

/// These steps, and then the command with standard input in the place of the file.
fn pipe(steps: Vec<String>, file: &OsStr) -> String {
    let again = again(env::args_os().skip(1).collect(), file);
    format!("{} | multisize {again}", steps.join(" | "))
}

/// A file's name as a further word. For standard input there is none, unless the
/// program needs one.
fn file_word(file: &OsStr, needed: bool) -> String {
    if file == "-" && !needed {
        return String::new();
    }
    format!(" {}", quoted(file))
}

/// The words of a command with standard input in the place of a file, which stands
/// after the command's name, alone or after an option's `=`.
fn again(words: Vec<OsString>, file: &OsStr) -> String {
    let mut found = false;
    let mut word = |(at, word): (usize, &OsString)| {
        let option = word.as_bytes().strip_suffix(file.as_bytes());
        let option = option.filter(|option| option.is_empty() || option.ends_with(b"="));
        match option.filter(|_| at > 0 && !found) {
            Some(option) => {
                found = true;
                format!("{}-", String::from_utf8_lossy(option))
            }
            None => quoted(word),
        }
    };
    let words: Vec<String> = words.iter().enumerate().map(&mut word).collect();
    words.join(" ")
}

/// A word as a shell takes it.
fn quoted(word: &OsStr) -> String {
    let text = word.to_string_lossy();
    let plain = |byte: u8| byte.is_ascii_alphanumeric() || b"._/%=:,+-".contains(&byte);
    if !text.is_empty() && text.bytes().all(plain) {
        return text.into_owned();
    }
    format!("'{}'", text.replace('\'', "'\\''"))
}

#[cfg(test)]
mod tests {
    use super::*;

    fn name(bytes: &[u8]) -> Option<&'static str> {
        of(bytes).map(|format| format.name)
    }

    #[test]
    fn first_bytes_tell_the_format() {
        assert_eq!(name(b"\xff\xd8\xff\xe0\0\x10JFIF"), Some("JPEG"));
        assert_eq!(name(b"RIFF\x10\0\0\0WEBPVP8 "), Some("WebP"));
        assert_eq!(name(b"\0\0\0\x18ftypheic"), Some("HEIF"));
        for unknown in [&b""[..], b"P5\n1 1\n255\n.", b"P", b"\x89PNG", b"(multi"] {
            assert_eq!(name(unknown), None);
        }
    }

    #[test]
    fn words_are_quoted_for_a_shell() {
        assert_eq!(quoted(OsStr::new("a/b-1.png")), "a/b-1.png");
        assert_eq!(quoted(OsStr::new("my picture.png")), "'my picture.png'");
        assert_eq!(quoted(OsStr::new("it's")), "'it'\\''s'");
        assert_eq!(quoted(OsStr::new("")), "''");
    }

    #[test]
    fn the_same_command_reads_standard_input() {
        let words = ["carve", "a b.jpg", "60%", "-o", "out.png"].map(OsString::from);
        let line = again(words.to_vec(), OsStr::new("a b.jpg"));
        assert_eq!(line, "carve - 60% -o out.png");
        let words = ["remove", "a", "--take=b", "-o", "c"].map(OsString::from);
        let line = again(words.to_vec(), OsStr::new("b"));
        assert_eq!(line, "remove a --take=- -o c");
        let words = ["carve", "carve", "1", "-o", "c"].map(OsString::from);
        let line = again(words.to_vec(), OsStr::new("carve"));
        assert_eq!(line, "carve - 1 -o c");
        let words = ["carve", "-", "300", "-o", "x.png"].map(OsString::from);
        assert_eq!(
            again(words.to_vec(), OsStr::new("-")),
            "carve - 300 -o x.png"
        );
    }
}
