//! A picture cut again and again; and a picture at a width by the reference's
//! cuts alone, without a file and without the reference's maps.

use crate::pictures::{byte_count, channels};
use reference::{Axis, Method, Size};

/// The samples of the picture at a width: cut as often as it is narrower, or
/// with a new pixel for each pixel that as many cuts take as it is wider.
pub fn at_width(samples: &[u8], size: Size, method: Method, wanted: usize) -> Vec<u8> {
    let count = size.width.abs_diff(wanted);
    let (left, taken) = carved(samples, size, method, count, by_reference);
    if wanted <= size.width {
        return left;
    }
    let rows = samples.chunks(size.width * channels(size.kind));
    let wider = |(row, taken): (&[u8], &Vec<usize>)| wider(row, size, taken);
    rows.zip(&taken).flat_map(wider).collect()
}

/// The columns of a picture's vertical seam by a method, and the bytes after it
/// is cut.
type Cut = fn(&[u8], Size, Method) -> (Vec<usize>, Vec<u8>);

/// The picture after so many cuts, and for each row the original columns of
/// the pixels that they took, the first cut first.
pub fn carved(
    samples: &[u8],
    size: Size,
    method: Method,
    count: usize,
    cut: Cut,
) -> (Vec<u8>, Vec<Vec<usize>>) {
    let (mut bytes, mut left) = (samples.to_vec(), size);
    // For each pixel left, its column in the original picture.
    let mut origins = vec![Vec::from_iter(0..size.width); size.height];
    let mut taken = vec![Vec::new(); size.height];
    for _ in 0..count {
        let seam;
        (seam, bytes) = cut(&bytes, left, method);
        left.width -= 1;
        bytes.truncate(byte_count(left));
        for (row, column) in seam.into_iter().enumerate() {
            taken[row].push(origins[row].remove(column));
        }
    }
    (bytes, taken)
}

fn by_reference(bytes: &[u8], size: Size, method: Method) -> (Vec<usize>, Vec<u8>) {
    let mut bytes = bytes.to_vec();
    let mut seam = vec![0; size.height];
    let mut work = vec![0; 32 * size.width * size.height];
    let axis = Axis::Vertical;
    reference::cut(&mut bytes, size, method, axis, &mut seam, &mut work)
        .expect("there are columns left");
    (seam.into_iter().map(usize::from).collect(), bytes)
}

/// A row with a new pixel to the right of each of these columns, or to the left
/// of the last column.
fn wider(row: &[u8], size: Size, columns: &[usize]) -> Vec<u8> {
    let pixels: Vec<&[u8]> = row.chunks(channels(size.kind)).collect();
    let last = size.width - 1;
    let mut wider = Vec::new();
    for column in 0..size.width {
        let new = columns.contains(&column);
        if new && column == last {
            wider.extend(between(pixels[last - 1], pixels[last]));
        }
        wider.extend_from_slice(pixels[column]);
        if new && column < last {
            wider.extend(between(pixels[column], pixels[column + 1]));
        }
    }
    wider
}

fn between(one: &[u8], other: &[u8]) -> Vec<u8> {
    let half = |(one, other): (&u8, &u8)| one.midpoint(*other);
    one.iter().zip(other).map(half).collect()
}

#[cfg(test)]
mod tests {
    use super::*;
    use crate::methods::{EDGE, FLAT, FORWARD};
    use reference::Kind;

    fn grey(width: usize, height: usize) -> Size {
        Size {
            width,
            height,
            kind: Kind::Grey,
        }
    }

    #[test]
    fn the_worked_picture_at_its_widths() {
        let picture = [10, 10, 40, 10, 50, 40];
        let at = |wanted| at_width(&picture, grey(3, 2), EDGE, wanted);
        assert_eq!(at(1), [10, 50]);
        assert_eq!(at(2), [10, 40, 50, 40]);
        assert_eq!(at(3), picture);
        assert_eq!(at(4), [10, 10, 10, 40, 10, 30, 50, 40]);
        let at = |wanted| at_width(&picture, grey(3, 2), FLAT, wanted);
        assert_eq!(at(1), [10, 10]);
        assert_eq!(at(2), [10, 10, 10, 50]);
        assert_eq!(at(3), picture);
        assert_eq!(at(4), [10, 10, 25, 40, 10, 50, 45, 40]);
        let at = |wanted| at_width(&picture, grey(3, 2), FORWARD, wanted);
        assert_eq!(at(1), [40, 40]);
        assert_eq!(at(2), [10, 40, 10, 40]);
        assert_eq!(at(3), picture);
        assert_eq!(at(4), [10, 10, 10, 40, 10, 50, 45, 40]);
    }

    /// Both last columns are doubled: the new pixel of the one before stands
    /// ahead of that of the last.
    #[test]
    fn new_pixels_at_the_end_of_a_row() {
        assert_eq!(wider(&[1, 9, 4], grey(3, 1), &[1, 2]), [1, 9, 6, 6, 4]);
        assert_eq!(wider(&[1, 9, 4], grey(3, 1), &[0]), [1, 5, 9, 4]);
        assert_eq!(between(&[255, 0, 3], &[255, 1, 8]), [255, 0, 5]);
    }
}
