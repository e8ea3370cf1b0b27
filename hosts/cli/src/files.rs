//! The commands on multi-size files.

use crate::colours;
use crate::failure::Failure;
use crate::inputs::Input;
use crate::outputs::{print, Output};
use crate::page;
use crate::progress::during;
use crate::table;
use multisize::{Carver, Contents, Energy, Head, Picture, Range, Refusal, Size};
use std::ffi::OsString;

pub fn build(
    picture: &Input,
    out: &Output,
    depth: Option<usize>,
    growth: Option<usize>,
    energy: Energy,
) -> Result<(), Failure> {
    let source = picture.picture()?;
    let width = source.size().width;
    let mut range = depth.map_or(Range::full(width), |depth| Range::deep(width, depth));
    range.growth = growth.unwrap_or(range.growth);
    let built = during("building", || Carver::by(energy).build(&source, range));
    let built = built.map_err(|refusal| match refusal {
        Refusal::Range => picture.because(refusal, out_of_range(width, range), None),
        _ => picture.refused(refusal),
    });
    out.write(&built?)
}

/// Which depth or growth is allowed instead of this.
fn out_of_range(width: usize, range: Range) -> String {
    let Range { depth, growth } = range;
    if depth >= width {
        let most = width - 1;
        return format!("a picture {width} wide allows a depth of at most {most}, not {depth}");
    }
    let most = Range::deep(width, depth).growth;
    let wide = format!("a picture {width} wide allows with depth {depth}");
    format!("{wide} a growth of at most {most}, not {growth}")
}

pub fn check(file: &Input) -> Result<Head, Failure> {
    check_text(file, &file.file()?)
}

fn check_text(file: &Input, text: &[u8]) -> Result<Head, Failure> {
    let checked = during("checking", || Carver::new().check(text));
    checked.map_err(|refusal| file.refused_text(refusal, text))
}

pub fn info(file: &Input, json: bool) -> Result<(), Failure> {
    let head = check(file)?;
    let Size {
        width,
        height,
        kind,
    } = head.size;
    let (kind, energy) = (kind.word(), head.method.energy.word());
    let Range { depth, growth } = head.range;
    let (least, most) = head.widths().into_inner();
    if json {
        let size = format!("\"width\": {width}, \"height\": {height}, \"kind\": \"{kind}\"");
        let range = format!("\"depth\": {depth}, \"growth\": {growth}, \"energy\": \"{energy}\"");
        let widths = format!("\"narrowest\": {least}, \"widest\": {most}");
        return print(format!("{{{size}, {range}, {widths}}}\n").as_bytes());
    }
    let size = format!("width {width}, height {height}, {kind}");
    let range = format!("depth {depth}, growth {growth}\nenergy {energy}");
    print(format!("{size}\n{range}\nwidths {least} to {most}\n").as_bytes())
}

pub fn show(file: &Input, shown: &[(usize, Output)]) -> Result<(), Failure> {
    let text = file.file()?;
    let mut carver = Carver::new();
    match shown {
        [(width, out)] => out.picture(&at_width(file, &text, *width, &mut carver)?),
        _ => show_all(file, &text, shown, &mut carver),
    }
}

/// Shows a file at several widths. It is checked once, and each width is shown by the
/// map that was read with the picture.
fn show_all(
    file: &Input,
    text: &[u8],
    shown: &[(usize, Output)],
    carver: &mut Carver,
) -> Result<(), Failure> {
    let contents = read_text(file, text, carver)?;
    let head = contents.head();
    let unoffered = |(width, _): &&(usize, Output)| !head.widths().contains(width);
    if let Some((width, _)) = shown.iter().find(unoffered) {
        return Err(file.unoffered(*width, Some(head)));
    }
    for (width, out) in shown {
        let picture = contents.show(*width);
        out.picture(&picture.map_err(|refusal| file.refused(refusal))?)?;
    }
    Ok(())
}

fn at_width(
    file: &Input,
    text: &[u8],
    width: usize,
    carver: &mut Carver,
) -> Result<Picture, Failure> {
    let shown = during("checking", || carver.show(text, width));
    shown.map_err(|refusal| match refusal {
        // 7 comes ahead of the check, which is done for the widths offered.
        Refusal::Wanted => {
            let head = during("checking", || carver.check(text));
            file.unoffered(width, head.ok())
        }
        _ => file.refused_text(refusal, text),
    })
}

fn read(file: &Input) -> Result<Contents, Failure> {
    read_text(file, &file.file()?, &mut Carver::new())
}

fn read_text(file: &Input, text: &[u8], carver: &mut Carver) -> Result<Contents, Failure> {
    let read = during("checking", || carver.read(text));
    read.map_err(|refusal| file.refused_text(refusal, text))
}

pub fn seams(file: &Input, out: &Output, first: Option<usize>) -> Result<(), Failure> {
    let contents = read(file)?;
    let drawn = colours::drawn(&contents, first.unwrap_or(contents.range.depth));
    out.picture(&drawn.map_err(|refusal| file.refused(refusal))?)
}

pub fn table(file: &Input, out: &Output, long: bool) -> Result<(), Failure> {
    let contents = read(file)?;
    let form = if long { table::long } else { table::csv };
    let csv = during("cutting", || form(&contents));
    out.write(csv.map_err(|refusal| file.refused(refusal))?.as_bytes())
}

pub fn page(file: &Input, out: &Output, title: Option<OsString>) -> Result<(), Failure> {
    let text = file.file()?;
    check_text(file, &text)?;
    let name = file.stem();
    let title = title.as_ref().unwrap_or(&name).to_string_lossy();
    out.write(page::page(&title, &name.to_string_lossy(), &text).as_bytes())
}
