//! The commands on multi-size files.

use super::{apart, energy, out, picture_out};
use crate::command::Command;
use crate::failure::Failure;
use crate::inputs::Input;
use crate::outputs::Output;
use crate::words::{number, Words};
use std::ffi::{OsStr, OsString};
use std::os::unix::ffi::{OsStrExt, OsStringExt};

pub fn build(words: Vec<OsString>) -> Result<Command, Failure> {
    let mut words = Words::of(words, &["-o", "--depth", "--growth", "--energy"], &[])?;
    let [picture] = words.plain(["the picture"])?;
    let picture = Input(picture);
    let out = out(&mut words)?.of_text("a multi-size file")?;
    Ok(Command::Build {
        out: apart(out, &[&picture])?,
        picture,
        depth: words.number("--depth")?,
        growth: words.number("--growth")?,
        energy: energy(&mut words)?,
    })
}

pub fn check(words: Vec<OsString>) -> Result<Command, Failure> {
    let [file] = Words::of(words, &[], &[])?.plain(["the file"])?;
    Ok(Command::Check { file: Input(file) })
}

pub fn info(words: Vec<OsString>) -> Result<Command, Failure> {
    let mut words = Words::of(words, &[], &["--json"])?;
    let [file] = words.plain(["the file"])?;
    Ok(Command::Info {
        file: Input(file),
        json: words.flag("--json"),
    })
}

pub fn show(words: Vec<OsString>) -> Result<Command, Failure> {
    let mut words = Words::of(words, &["-o"], &[])?;
    let ([file, first], more) = words.plain_and_more(["the file", "the width"])?;
    let file = Input(file);
    let out = out(&mut words)?.of_picture()?;
    if !more.is_empty() && with_width(&out.0, 0) == out.0 {
        let text = "several widths need %w in the name after -o, where each is put";
        return Err(Failure::usage(text));
    }
    let mut shown: Vec<(usize, Output)> = Vec::new();
    for width in std::iter::once(first).chain(more) {
        let width = number("the width", width)?;
        if shown.iter().any(|(other, _)| *other == width) {
            return Err(Failure::Usage(format!("the width {width} is given twice")));
        }
        let out = Output(with_width(&out.0, width));
        shown.push((width, apart(out, &[&file])?));
    }
    Ok(Command::Show { file, shown })
}

/// The name with a width in the place of each `%w`.
fn with_width(name: &OsStr, width: usize) -> OsString {
    let mut rest = name.as_bytes();
    let mut bytes = Vec::new();
    while let Some((byte, after)) = rest.split_first() {
        rest = after;
        match rest.strip_prefix(b"w").filter(|_| *byte == b'%') {
            Some(after) => {
                bytes.extend(width.to_string().bytes());
                rest = after;
            }
            None => bytes.push(*byte),
        }
    }
    OsString::from_vec(bytes)
}

pub fn seams(words: Vec<OsString>) -> Result<Command, Failure> {
    let mut words = Words::of(words, &["-o", "--first"], &[])?;
    let [file] = words.plain(["the file"])?;
    let file = Input(file);
    Ok(Command::Seams {
        out: picture_out(&mut words, &[&file])?,
        file,
        first: words.number("--first")?,
    })
}

pub fn table(words: Vec<OsString>) -> Result<Command, Failure> {
    let mut words = Words::of(words, &["-o"], &["--long"])?;
    let [file] = words.plain(["the file"])?;
    let file = Input(file);
    let out = Output(words.option("-o").unwrap_or("-".into()));
    Ok(Command::Table {
        out: apart(out.of_text("a table")?, &[&file])?,
        file,
        long: words.flag("--long"),
    })
}

pub fn page(words: Vec<OsString>) -> Result<Command, Failure> {
    let mut words = Words::of(words, &["-o", "--title"], &[])?;
    let [file] = words.plain(["the file"])?;
    let file = Input(file);
    let out = out(&mut words)?.of_text("a page")?;
    Ok(Command::Page {
        out: apart(out, &[&file])?,
        file,
        title: words.option("--title"),
    })
}

#[cfg(test)]
mod tests {
    use super::*;

    #[test]
    fn a_width_takes_the_place_of_its_mark() {
        let name = |name: &str| with_width(OsStr::new(name), 176);
        assert_eq!(name("f-%w.png"), "f-176.png");
        assert_eq!(name("%w/%w%"), "176/176%");
        assert_eq!(name("100%.png"), "100%.png");
        assert_eq!(name("%%w"), "%176");
    }
}
