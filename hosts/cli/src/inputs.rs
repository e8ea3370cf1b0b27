//! Where bytes come from: files and standard input.

use crate::failure::{any_of, Failure};
use crate::formats;
use multisize::{netpbm, png, Energy, Head, Picture, Refusal, Size, LARGEST_SIDE, LONGEST_FILE};
use std::ffi::OsString;
use std::fs::File;
use std::io::{self, Read};
use std::path::Path;

const BREAKS_FORM: &str = "the text breaks its form";

/// A file to read, or `-` for standard input.
pub struct Input(pub OsString);

impl Input {
    fn name(&self) -> String {
        if self.is_standard() {
            return "standard input".to_string();
        }
        self.0.to_string_lossy().into_owned()
    }

    pub fn is_standard(&self) -> bool {
        self.0 == "-"
    }

    /// Its name without folder and ending.
    pub fn stem(&self) -> OsString {
        let stem = Path::new(&self.0).file_stem().filter(|stem| *stem != "-");
        stem.map_or("picture".into(), |stem| stem.to_owned())
    }

    /// All its bytes, or the first ones where there are more than are ever served: then
    /// it is one more than [`LONGEST_FILE`].
    fn front(&self) -> Result<Vec<u8>, Failure> {
        let mut bytes = Vec::new();
        let most = LONGEST_FILE as u64 + 1;
        let read = if self.is_standard() {
            io::stdin().lock().take(most).read_to_end(&mut bytes)
        } else {
            File::open(&self.0).and_then(|file| file.take(most).read_to_end(&mut bytes))
        };
        let name = self.name();
        read.map_err(|error| Failure::File { name, error })?;
        Ok(bytes)
    }

    /// The text of its multi-size file.
    pub fn file(&self) -> Result<Vec<u8>, Failure> {
        let bytes = self.front()?;
        if bytes.len() > LONGEST_FILE {
            return Err(self.long());
        }
        match formats::of(&bytes) {
            Some(format) => {
                let meaning = format!("it is {}, and no multi-size file", format.name);
                let hint = "multisize build makes one of a picture";
                Err(self.because(Refusal::Form, meaning, Some(hint.to_string())))
            }
            None => Ok(bytes),
        }
    }

    /// Its picture, from PNG or Netpbm.
    pub fn picture(&self) -> Result<Picture, Failure> {
        let bytes = self.front()?;
        if bytes.starts_with(&png::SIGNATURE) {
            return png::read(&bytes).map_err(|error| self.no_png(error, &bytes));
        }
        netpbm::read(&bytes).map_err(|refusal| self.no_netpbm(refusal, &bytes))
    }

    fn no_png(&self, error: png::Error, bytes: &[u8]) -> Failure {
        if error == png::Error::Short && bytes.len() > LONGEST_FILE {
            return self.long();
        }
        let hint = match error {
            png::Error::Sides { .. } if error.refusal() == Refusal::Large => {
                let pipe = formats::smaller_png(&self.0);
                Some(format!("made smaller it is read: {pipe}"))
            }
            png::Error::Unread(_) => {
                let large = |side: u32| side as usize > LARGEST_SIDE;
                let large = png::sides(bytes).is_some_and(|(w, h)| large(w) || large(h));
                let pipe = formats::plain_png(&self.0, large);
                Some(format!("without that it is read: {pipe}"))
            }
            _ => None,
        };
        self.because(error.refusal(), error.to_string(), hint)
    }

    fn no_netpbm(&self, refusal: Refusal, bytes: &[u8]) -> Failure {
        let Some((size, samples)) = netpbm::header(bytes) else {
            return self.other_format(bytes);
        };
        let Size { width, height, .. } = size;
        let kind = size.kind.word();
        match refusal {
            Refusal::Large => {
                let meaning = format!("{}; it is {width} by {height}", refusal.meaning());
                let hint = formats::smaller(&self.0);
                let hint = format!("made smaller it is read: {hint}");
                self.because(refusal, meaning, Some(hint))
            }
            Refusal::Length => {
                let more = if bytes.len() > LONGEST_FILE {
                    "over "
                } else {
                    ""
                };
                let needed = width * height * size.kind.channels();
                let size = format!("{width} by {height} {kind}");
                let meaning = format!(
                    "a picture of {size} has {needed} samples, and here are {more}{samples}"
                );
                self.because(refusal, meaning, None)
            }
            _ => self.refused(refusal),
        }
    }

    /// The failure of a picture that is neither PNG nor Netpbm with a header that is read.
    fn other_format(&self, bytes: &[u8]) -> Failure {
        let served = "PNG and Netpbm P5 and P6 with samples up to 255 are read";
        let (meaning, hint) = match formats::of(bytes) {
            Some(format) => (
                format!("it is {}, which isn't read as a picture", format.name),
                format!("this reads it: {}", format.pipe(&self.0)),
            ),
            None if bytes.starts_with(b"P5") || bytes.starts_with(b"P6") => (
                "its Netpbm header breaks its form, or its samples aren't up to 255".to_string(),
                format!(
                    "this reads deeper samples: {}",
                    formats::eight_bits(&self.0)
                ),
            ),
            None if bytes.starts_with(b"(multi") => (
                "it is a multi-size file".to_string(),
                "multisize show writes its picture at a width".to_string(),
            ),
            None if bytes.is_empty() => ("it is empty".to_string(), served.to_string()),
            None => (
                "it is no picture that is known here".to_string(),
                served.to_string(),
            ),
        };
        self.because(Refusal::Form, meaning, Some(hint))
    }

    /// The failure of an operation on what stands there. Of a meaning with several parts
    /// the one that a multi-size file has is said.
    pub fn refused(&self, refusal: Refusal) -> Failure {
        let meaning = match refusal {
            Refusal::Form => BREAKS_FORM,
            Refusal::Length => {
                "the number of rows, samples or map numbers isn't what the size says"
            }
            _ => refusal.meaning(),
        };
        self.because(refusal, meaning.to_string(), None)
    }

    /// The same of a multi-size file with this text. Where it is the energy line that
    /// breaks the form, a hint says so.
    pub fn refused_text(&self, refusal: Refusal, text: &[u8]) -> Failure {
        match about_energy(text).filter(|_| refusal == Refusal::Form) {
            Some(hint) => self.because(refusal, BREAKS_FORM.to_string(), Some(hint)),
            None => self.refused(refusal),
        }
    }

    /// The failure with its cause in numbers.
    pub fn because(&self, refusal: Refusal, meaning: String, hint: Option<String>) -> Failure {
        let name = self.name();
        Failure::Refused {
            name,
            refusal,
            meaning,
            hint,
        }
    }

    /// The failure of a width that the file there doesn't offer.
    pub fn unoffered(&self, width: usize, head: Option<Head>) -> Failure {
        let hint = head.map(|head| match head.widths().into_inner() {
            (least, most) if least == most => format!("the file offers the width {least} alone"),
            (least, most) => format!("the file offers the widths {least} to {most}"),
        });
        let meaning = format!("the width {width} isn't offered");
        self.because(Refusal::Wanted, meaning, hint)
    }

    fn long(&self) -> Failure {
        Failure::Long { name: self.name() }
    }
}

/// What is wrong with the energy line, which stands after size and range: it is missing,
/// or it names no energy.
fn about_energy(text: &[u8]) -> Option<String> {
    let mut lines = text.split(|byte| *byte == b'\n');
    let mut before = ["(multi", "(size ", "(range "].iter().zip(lines.by_ref());
    let headed = before.all(|(start, line)| line.starts_with(start.as_bytes()));
    let line = lines.next().filter(|_| headed)?;
    let energies = Energy::ALL.iter().map(|energy| energy.word());
    let energies: Vec<String> = energies.map(|word| format!("(energy {word})")).collect();
    let known = any_of(&energies);
    if line.starts_with(b"(row") {
        let which = "whichever it is accepted with (docs/FILE.md says more)";
        let advice = format!("put {known} after its range line, {which}");
        return Some(format!("its energy line is missing: {advice}"));
    }
    let named = line.strip_prefix(b"(energy ")?.strip_suffix(b")")?;
    let energy = Energy::named(&String::from_utf8_lossy(named));
    Some(format!("its energy line isn't {known}")).filter(|_| energy.is_none())
}
