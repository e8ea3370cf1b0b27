//! The largest pictures.

use crate::definitions::*;
use crate::helpers::*;
use crate::random::Random;
use crate::verdict::contents;
use reference::{Axis, Columns, Kind, Method, Rows, Size};

fn large_picture(seed: u64, size: Size) -> Vec<u8> {
    let mut random = Random::new(seed);
    let values: Vec<u8> = (0..=255).collect();
    random.bytes(byte_count(size), &values)
}

/// The seam is connected, its cost is the sum of what its pixels cost, and no
/// path is cheaper: the least sums are worked out once more, from the bottom row
/// upward.
fn judge_seam(picture: &[u8], size: Size, method: Method, columns: &[u16], cost: u64) {
    assert!(columns
        .windows(2)
        .all(|step| step[0].abs_diff(step[1]) <= 1));
    let pixel = |at, from| pixel_cost(picture, size, method, Axis::Vertical, at, from);
    let path: Vec<usize> = columns.iter().rev().map(|j| usize::from(*j)).collect();
    assert_eq!(path_cost(&path, pixel), cost);
    // For each pixel of a row the least that a path pays in the rows below it.
    let mut below = vec![0; size.width];
    for i in (1..size.height).rev() {
        let least = |from: usize| {
            let near = from.max(1) - 1..=(from + 1).min(size.width - 1);
            near.map(|j| pixel((i, j), Some(from)) + below[j]).min()
        };
        below = (0..size.width).map(|from| least(from).unwrap()).collect();
    }
    let whole = (0..size.width).map(|j| pixel((0, j), None) + below[j]);
    assert_eq!(whole.min(), Some(cost));
}

#[test]
fn one_seam_of_the_largest_picture() {
    for (kind, method) in [
        (Kind::Grey, EDGE),
        (Kind::Grey, FLAT),
        (Kind::Grey, FORWARD),
        (Kind::Rgb, EDGE),
        (Kind::Rgb, FLAT),
        (Kind::Rgb, FORWARD),
    ] {
        let size = size(512, 512, kind);
        let picture = large_picture(71, size);
        let (columns, cost) = found(&picture, size, method, Axis::Vertical);
        judge_seam(&picture, size, method, &columns, cost);
        let (left, cut_columns, _) = cut_once(&picture, size, method, Axis::Vertical).unwrap();
        assert_eq!(cut_columns, columns);
        let expected = after_cut(&picture, size, channels(kind), Axis::Vertical, &columns);
        assert_eq!(left, padded(expected, picture.len()));
        let (left, rows, _) = cut_once(&picture, size, method, Axis::Horizontal).unwrap();
        let expected = after_cut(&picture, size, channels(kind), Axis::Horizontal, &rows);
        assert_eq!(left, padded(expected, picture.len()));
    }
}

/// The dearest seam: differences of 255 in three channels both ways, at the
/// edges too.
#[test]
fn dearest_seam_of_the_largest_picture() {
    let size = size(512, 512, Kind::Rgb);
    let mut picture = Vec::new();
    for i in 0..512 {
        for j in 0..512 {
            picture.extend_from_slice(&[if (i + j) % 2 == 0 { 0 } else { 255 }; 3]);
        }
    }
    // Every pixel costs 765 + 765, so all paths cost the same and column 0 is the
    // first of them.
    let (columns, cost) = found(&picture, size, EDGE, Axis::Vertical);
    assert_eq!(columns, vec![0; 512]);
    assert_eq!(cost, 512 * 1_530);
    // By `flat` a pixel of the last column costs 765, and the corner nothing.
    let (columns, cost) = found(&picture, size, FLAT, Axis::Vertical);
    assert_eq!(columns, vec![511; 512]);
    assert_eq!(cost, 511 * 765);
}

/// The dearest seam by `forward`: with columns of 0 255 255 0 over and over, both
/// neighbours of each pixel differ by 255 in three channels.
#[test]
fn dearest_forward_seam_of_the_largest_picture() {
    let size = size(512, 512, Kind::Rgb);
    let dark = |place: usize| {
        if [0, 3].contains(&(place % 4)) {
            [0; 3]
        } else {
            [255; 3]
        }
    };
    let picture: Vec<u8> = (0..512 * 512).flat_map(|pixel| dark(pixel % 512)).collect();
    let seam = (vec![0; 512], 512 * 765);
    assert_eq!(found(&picture, size, FORWARD, Axis::Vertical), seam);
    // A column of the turned picture has neighbours that are alike.
    let seam = (vec![0; 512], 0);
    assert_eq!(found(&picture, size, FORWARD, Axis::Horizontal), seam);
}

/// The map that stands in a file.
fn map_in(file: &[u8]) -> Vec<u16> {
    let rows = contents(file).unwrap().map;
    rows.concat().iter().map(|number| *number as u16).collect()
}

/// Showing checks the file first, so each of its 128 seams is found twice.
#[test]
fn largest_file() {
    let size = size(512, 512, Kind::Grey);
    let picture = large_picture(72, size);
    let file = built(&picture, size, FORWARD, 128, 128).unwrap();
    let mut work = work_space(size);
    let mut out = vec![OLD_BYTE; 640 * 512];
    let shown = reference::show(&file, 640, &mut out, &mut work).unwrap();
    assert_eq!((shown.width, shown.height), (640, 512));
    assert_eq!(out, wider(&picture, &map_in(&file), size, 128));
    assert!(is_zero(&work));
    assert_eq!(reference::show(&file, 641, &mut out, &mut work), Err(7));
    assert_eq!(reference::show(&file, 383, &mut out, &mut work), Err(7));
}

/// A wide file: reading, and some widths against cut after cut.
#[test]
fn widest_file() {
    let size = size(512, 40, Kind::Rgb);
    let picture = large_picture(75, size);
    let file = built(&picture, size, EDGE, 511, 256).unwrap();
    let mut work = work_space(size);
    let info = reference::check(&file, &mut work).unwrap();
    assert_eq!((info.size, info.depth, info.growth), (size, 511, 256));
    let mut read_picture = vec![OLD_BYTE; picture.len()];
    let mut map = vec![OLD_NUMBER; 512 * 40];
    reference::read(&file, &mut read_picture, &mut map, &mut work).unwrap();
    assert_eq!(read_picture, picture);
    assert_eq!(map, map_in(&file));
    let mut left = picture.clone();
    for width in (1..=512).rev() {
        let shown_size = Size { width, ..size };
        if [511, 256, 1].contains(&width) {
            let mut out = vec![OLD_BYTE; byte_count(shown_size)];
            let answer = reference::show(&file, width, &mut out, &mut work);
            assert_eq!(answer, Ok(shown_size));
            assert_eq!(out, left);
        }
        if width > 1 {
            let (lent, _, _) = cut_once(&left, shown_size, EDGE, Axis::Vertical).unwrap();
            left = lent[..lent.len() - 40 * 3].to_vec();
        }
    }
    let mut out = vec![OLD_BYTE; 768 * 40 * 3];
    let answer = reference::show(&file, 768, &mut out, &mut work);
    assert_eq!(answer.map(|size| size.width), Ok(768));
    assert_eq!(out, wider(&picture, &map, size, 256));
    assert_eq!(reference::show(&file, 769, &mut out, &mut work), Err(7));
    assert_eq!(reference::show(&file, 0, &mut out, &mut work), Err(7));
}

#[test]
fn retarget_of_a_larger_picture() {
    let size = size(90, 80, Kind::Rgb);
    let picture = large_picture(73, size);
    let mut out = vec![OLD_BYTE; 26 * 16 * 3];
    let mut work = crate::retargets::retarget_work(size);
    let (rows, columns) = (Rows(64), Columns(64));
    let total = reference::retarget(&picture, size, EDGE, rows, columns, &mut out, &mut work);
    assert!(total.unwrap() > 0);
    assert!(is_zero(&work));
}

#[test]
fn object_removal_from_a_larger_picture() {
    let size = size(200, 100, Kind::Rgb);
    let mut picture = large_picture(74, size);
    let mut marks = vec![0; 200 * 100];
    for i in 30..60 {
        for j in 80..120 {
            marks[i * 200 + j] = 2;
        }
    }
    let mut work = work_space(size);
    let (ending, count) =
        reference::remove_object(&mut picture, &mut marks, size, FLAT, 65_535, &mut work).unwrap();
    assert_eq!(ending, reference::Ending::Done);
    // Each of the 30 rows loses 40 marked pixels, at most one a seam.
    assert!(count >= 40);
    assert!(is_zero(&marks));
    let freed = usize::from(count) * 100 * 3;
    assert!(is_zero(&picture[picture.len() - freed..]));
}
