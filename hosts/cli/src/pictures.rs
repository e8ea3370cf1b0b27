//! The commands on pictures.

use crate::command::{Marks, Width};
use crate::failure::Failure;
use crate::inputs::Input;
use crate::marks;
use crate::outputs::{print, Output};
use crate::progress::during;
use multisize::{Carver, Columns, Energy, Picture, Range, Refusal, Rows, Size, LARGEST_COUNT};
use std::io::{self, Write};

/// Builds a picture's file with as many seams as the width needs, and shows it.
pub fn carve(picture: &Input, width: Width, out: &Output, energy: Energy) -> Result<(), Failure> {
    let source = picture.picture()?;
    let own = source.size().width;
    let (wanted, most) = (width.of(own), own + Range::full(own).growth);
    if !(1..=most).contains(&wanted) {
        let meaning = format!("the width {wanted} can't be carved");
        let hint = format!("the picture is {own} wide, and is carved to 1 to {most} columns");
        return Err(picture.because(Refusal::Wanted, meaning, Some(hint)));
    }
    let carved = during("carving", || at_width(&source, wanted, energy));
    out.picture(&carved.map_err(|refusal| picture.refused(refusal))?)
}

fn at_width(source: &Picture, wanted: usize, energy: Energy) -> Result<Picture, Refusal> {
    let own = source.size().width;
    let range = Range {
        depth: wanted.abs_diff(own),
        growth: wanted.saturating_sub(own),
    };
    let mut carver = Carver::by(energy);
    let file = carver.build(source, range)?;
    carver.show(&file, wanted)
}

pub fn remove(
    picture: &Input,
    marks: &Marks,
    out: &Output,
    budget: u16,
    energy: Energy,
) -> Result<(), Failure> {
    let mut left = picture.picture()?;
    let width = left.size().width;
    let mut marked = marks::read(marks, left.size())?;
    let ending = during("removing", || {
        Carver::by(energy).remove(&mut left, &mut marked, budget)
    });
    let ending = ending.map_err(|refusal| match refusal {
        Refusal::Mark => marks::refused(marks, &marked, width),
        _ => picture.refused(refusal),
    })?;
    out.picture(&left)?;
    tell(out, &format!("{ending}\n"))
}

pub fn retarget(
    picture: &Input,
    rows: Rows,
    columns: Columns,
    out: &Output,
    energy: Energy,
) -> Result<(), Failure> {
    let source = picture.picture()?;
    let given = during("retargeting", || {
        Carver::by(energy).retarget(&source, rows, columns)
    });
    let given = given.map_err(|refusal| match refusal {
        Refusal::Wanted => picture.because(refusal, too_far(source.size(), rows, columns), None),
        _ => picture.refused(refusal),
    })?;
    out.picture(&given.picture)?;
    tell(out, &format!("total {}\n", given.total))
}

/// Why so many rows and columns can't go.
fn too_far(size: Size, rows: Rows, columns: Columns) -> String {
    let asked = format!("{} rows and {} columns were asked", rows.0, columns.0);
    if rows.0.max(columns.0) > LARGEST_COUNT {
        let most = format!("at most {LARGEST_COUNT} rows and {LARGEST_COUNT} columns are removed");
        return format!("{most}; {asked}");
    }
    let picture = format!("the picture is {} by {}", size.width, size.height);
    format!("a row and a column must be left; {picture}, and {asked}")
}

/// Says what came of it: on standard output unless the picture went there.
fn tell(out: &Output, text: &str) -> Result<(), Failure> {
    if !out.is_standard() {
        return print(text.as_bytes());
    }
    let name = "standard error".to_string();
    let told = io::stderr().write_all(text.as_bytes());
    told.map_err(|error| Failure::File { name, error })
}
