//! Marks from pictures.

use crate::command::Marks;
use crate::failure::Failure;
use crate::inputs::Input;
use multisize::{Kind, Picture, Refusal, Size, PLAIN, PROTECTED, REMOVE};

/// A mark for each pixel of a picture of this size.
pub fn read(marks: &Marks, size: Size) -> Result<Vec<u8>, Failure> {
    match marks {
        Marks::Numbered(marks) => numbered(marks, size),
        Marks::Painted { take, keep } => {
            let take = painted(take, size)?;
            let keep = keep.as_ref().map(|keep| painted(keep, size)).transpose()?;
            let mark = |at: usize| match keep.as_ref().map(|keep| keep[at]) {
                Some(true) => PROTECTED,
                _ if take[at] => REMOVE,
                _ => PLAIN,
            };
            Ok((0..take.len()).map(mark).collect())
        }
    }
}

/// The samples of a grey picture as marks.
fn numbered(marks: &Input, size: Size) -> Result<Vec<u8>, Failure> {
    let picture = sized(marks, size)?;
    if picture.size().kind != Kind::Grey {
        let meaning = format!(
            "marks are grey, and this picture is {}",
            picture.size().kind.word()
        );
        let hint = "a picture in colours goes with --take or --keep";
        return Err(marks.because(Refusal::Length, meaning, Some(hint.to_string())));
    }
    Ok(picture.into_samples())
}

/// The failure of marks that the removal refuses: which one is over 2.
pub fn refused(marks: &Marks, samples: &[u8], width: usize) -> Failure {
    let at = samples.iter().position(|mark| *mark > REMOVE).unwrap_or(0);
    let (row, column) = (at / width, at % width);
    let place = format!("that of column {column} in row {row} is {}", samples[at]);
    let meaning = format!("{}; {place}", Refusal::Mark.meaning());
    let hint = "a picture in black and white goes with --take or --keep";
    let input = marks.inputs()[0];
    input.because(Refusal::Mark, meaning, Some(hint.to_string()))
}

/// Which pixels of a picture aren't black.
fn painted(picture: &Input, size: Size) -> Result<Vec<bool>, Failure> {
    let picture = sized(picture, size)?;
    let pixels = picture.samples().chunks(picture.size().kind.channels());
    Ok(pixels
        .map(|pixel| pixel.iter().any(|sample| *sample > 0))
        .collect())
}

/// A picture as wide and as high as the one that it marks.
fn sized(marks: &Input, size: Size) -> Result<Picture, Failure> {
    let picture = marks.picture()?;
    let Size { width, height, .. } = picture.size();
    if (width, height) != (size.width, size.height) {
        let marked = format!("the picture is {} by {}", size.width, size.height);
        let meaning = format!("{marked}, and its marks are {width} by {height}");
        return Err(marks.because(Refusal::Length, meaning, None));
    }
    Ok(picture)
}
