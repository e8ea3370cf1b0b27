//! The seams of a file as a table.

use multisize::{Axis, Carver, Contents, Refusal, Seam};
use std::fmt::{Display, Write};

/// CSV with a line for each seam, the first cut first.
pub fn csv(contents: &Contents) -> Result<String, Refusal> {
    let height = contents.picture.size().height;
    let left = (0..height).map(|row| format!("row_{row}_left"));
    let original = (0..height).map(|row| format!("row_{row}_original"));
    let mut text = line(&"seam", &"cost", left.chain(original));
    each_seam(contents, |number, seam, original| {
        text += &line(&number, &seam.cost, seam.places.iter().chain(original));
    })?;
    Ok(text)
}

/// CSV with a line for each seam and row, and so with the same columns for every
/// picture.
pub fn long(contents: &Contents) -> Result<String, Refusal> {
    let mut text = line(&"seam", &"cost", ["row", "left", "original"].iter());
    each_seam(contents, |number, seam, original| {
        for (row, (left, original)) in seam.places.iter().zip(original).enumerate() {
            let rest = [row, usize::from(*left), usize::from(*original)];
            text += &line(&number, &seam.cost, rest.iter());
        }
    })?;
    Ok(text)
}

/// Cuts each seam in turn, by the file's method, and hands on its number, the seam, and
/// its columns in the original.
fn each_seam(
    contents: &Contents,
    mut hand_on: impl FnMut(usize, &Seam, &[u16]),
) -> Result<(), Refusal> {
    let height = contents.picture.size().height;
    let mut carver = Carver::by(contents.method);
    let mut picture = contents.picture.clone();
    for (at, original) in originals(contents).chunks(height).enumerate() {
        // An accepted file records just the seams that cutting finds.
        let seam = carver.cut(&mut picture, Axis::Vertical)?;
        hand_on(at + 1, &seam, original);
    }
    Ok(())
}

/// For each seam its column in each row of the original.
fn originals(contents: &Contents) -> Vec<u16> {
    let size = contents.picture.size();
    let mut columns = vec![0; contents.range.depth * size.height];
    for (at, number) in contents.map.iter().enumerate() {
        let (row, column) = (at / size.width, at % size.width);
        if *number > 0 {
            // A side is at most LARGEST_SIDE, which fits.
            columns[(usize::from(*number) - 1) * size.height + row] = column as u16;
        }
    }
    columns
}

/// A line of the table.
fn line<T: Display>(
    number: &dyn Display,
    cost: &dyn Display,
    rest: impl Iterator<Item = T>,
) -> String {
    let mut text = format!("{number},{cost}");
    for item in rest {
        write!(text, ",{item}").expect("a string takes any text");
    }
    text + "\n"
}
