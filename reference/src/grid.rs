//! Pictures, marks and maps as rows of entries, and their way from and to
//! lent buffers.

use crate::picture::{row, Kind, Size};

/// Rows from the top, entries of a row from the left.
pub type Grid<T> = Vec<Vec<T>>;

/// The samples of a pixel, red first. A grey pixel uses the first one; the
/// others stay 0, so their differences are 0.
pub type Pixel = [u8; 3];

/// The pixel whose samples are given.
pub fn pixel(samples: &[u8]) -> Pixel {
    let mut pixel = [0; 3];
    pixel[..samples.len()].copy_from_slice(samples);
    pixel
}

/// The pixels of a lent picture that 2 to 4 don't refuse.
pub fn pixels_of(picture: &[u8], size: Size) -> Grid<Pixel> {
    let channels = size.kind.channels();
    let mut pixels = Vec::new();
    for i in 0..size.height {
        pixels.push(row(picture, size, i).chunks(channels).map(pixel).collect());
    }
    pixels
}

/// The bytes of a picture: rows from the top, pixels from the left, no padding.
pub fn bytes_of(pixels: &Grid<Pixel>, kind: Kind) -> Vec<u8> {
    let mut bytes = Vec::new();
    for row in pixels {
        for pixel in row {
            bytes.extend_from_slice(&pixel[..kind.channels()]);
        }
    }
    bytes
}

/// The marks of a lent mark buffer, by rows.
pub fn marks_of(marks: &[u8], size: Size) -> Grid<u8> {
    marks.chunks(size.width).map(|row| row.to_vec()).collect()
}

/// Marks that are all 0, for a picture of these pixels.
pub fn no_marks(pixels: &Grid<Pixel>) -> Grid<u8> {
    pixels.iter().map(|row| vec![0; row.len()]).collect()
}

/// Rows and columns exchanged.
pub fn exchange<T: Copy>(grid: &Grid<T>) -> Grid<T> {
    let mut exchanged = Vec::new();
    for column in 0..grid[0].len() {
        exchanged.push(grid.iter().map(|row| row[column]).collect());
    }
    exchanged
}

/// The grid without the entry at `columns[i]` of each row i; the rows close
/// up to the left.
pub fn close_up<T: Copy>(grid: &Grid<T>, columns: &[usize]) -> Grid<T> {
    let mut closed = Vec::new();
    for (row, column) in grid.iter().zip(columns) {
        let mut kept = row.clone();
        kept.remove(*column);
        closed.push(kept);
    }
    closed
}

/// Puts the answer at the front of a lent picture or mark buffer; the freed
/// bytes after it become 0.
pub fn pack(lent: &mut [u8], answer: &[u8]) {
    let (front, freed) = lent.split_at_mut(answer.len());
    front.copy_from_slice(answer);
    freed.fill(0);
}

/// Puts the answer at the front of an output space; the rest keeps its values.
pub fn give_out<T: Copy>(out: &mut [T], answer: &[T]) {
    out[..answer.len()].copy_from_slice(answer);
}
