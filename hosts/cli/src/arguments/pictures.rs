//! The commands on pictures.

use super::{energy, picture_out};
use crate::command::{Command, Marks, Width};
use crate::failure::Failure;
use crate::inputs::Input;
use crate::words::{number, Words};
use multisize::{Columns, Rows};
use std::ffi::OsString;
use std::os::unix::ffi::{OsStrExt, OsStringExt};

pub fn carve(words: Vec<OsString>) -> Result<Command, Failure> {
    let mut words = Words::of(words, &["-o", "--energy"], &[])?;
    let [picture, width] = words.plain(["the picture", "the width"])?;
    let picture = Input(picture);
    Ok(Command::Carve {
        width: wanted(width)?,
        out: picture_out(&mut words, &[&picture])?,
        picture,
        energy: energy(&mut words)?,
    })
}

/// A width in columns, or in hundredths where `%` follows.
fn wanted(word: OsString) -> Result<Width, Failure> {
    match word.as_bytes().strip_suffix(b"%") {
        Some(percent) if !percent.is_empty() => {
            let percent = OsString::from_vec(percent.to_vec());
            number("the percentage", percent).map(Width::Percent)
        }
        _ => number("the width", word).map(Width::Columns),
    }
}

pub fn remove(words: Vec<OsString>) -> Result<Command, Failure> {
    let known = ["-o", "--budget", "--take", "--keep", "--energy"];
    let mut words = Words::of(words, &known, &[])?;
    let ([picture], mut more) = words.plain_and_more(["the picture"])?;
    let picture = Input(picture);
    let (take, keep) = (words.option("--take"), words.option("--keep"));
    let marks = marks(&mut more, take, keep)?;
    let inputs: Vec<&Input> = [&picture].into_iter().chain(marks.inputs()).collect();
    if inputs.iter().filter(|input| input.is_standard()).count() > 1 {
        let text = "only one picture can come from standard input";
        return Err(Failure::usage(text));
    }
    Ok(Command::Remove {
        out: picture_out(&mut words, &inputs)?,
        picture,
        marks,
        budget: words.number("--budget")?.unwrap_or(u16::MAX),
        energy: energy(&mut words)?,
    })
}

/// Where marks come from: a word, or the options.
fn marks(
    words: &mut Vec<OsString>,
    take: Option<OsString>,
    keep: Option<OsString>,
) -> Result<Marks, Failure> {
    let first = words.pop();
    let text = match (first, take, keep) {
        _ if !words.is_empty() => "one picture of marks is enough",
        (Some(marks), None, None) => return Ok(Marks::Numbered(Input(marks))),
        (Some(_), ..) => "marks are a picture of 0, 1 and 2, or --take and --keep, not both",
        (None, None, _) => "the picture of marks, or --take, is missing",
        (None, Some(take), keep) => {
            let (take, keep) = (Input(take), keep.map(Input));
            return Ok(Marks::Painted { take, keep });
        }
    };
    Err(Failure::usage(text))
}

pub fn retarget(words: Vec<OsString>) -> Result<Command, Failure> {
    let mut words = Words::of(words, &["-o", "--rows", "--columns", "--energy"], &[])?;
    let [picture] = words.plain(["the picture"])?;
    let picture = Input(picture);
    Ok(Command::Retarget {
        rows: Rows(words.number("--rows")?.unwrap_or(0)),
        columns: Columns(words.number("--columns")?.unwrap_or(0)),
        out: picture_out(&mut words, &[&picture])?,
        picture,
        energy: energy(&mut words)?,
    })
}

#[cfg(test)]
mod tests {
    use super::*;

    #[test]
    fn a_width_is_columns_or_hundredths() {
        let of = |word: &str| wanted(OsString::from(word)).ok();
        assert_eq!(of("300"), Some(Width::Columns(300)));
        assert_eq!(of("60%"), Some(Width::Percent(60)));
        for wrong in ["", "%", "60%%", "-3", "1.5%", "70000%"] {
            assert_eq!(of(wrong), None, "{wrong}");
        }
    }
}
