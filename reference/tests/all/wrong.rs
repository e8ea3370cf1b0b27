//! The four carvings that look right and are not, and files that go by the wrong
//! energy. Each is made here on purpose; the library must differ from it on some
//! of the random pictures, which shows that these pictures tell the two apart.

use crate::definitions::*;
use crate::helpers::*;
use crate::random::Random;
use crate::verdict::verdict;
use reference::{Axis, Method, Size};

/// Number of random pictures on which the two answers differ.
pub fn differences<T: PartialEq>(
    seed: u64,
    right: impl Fn(&[u8], Size) -> T,
    wrong: impl Fn(&[u8], Size) -> T,
) -> usize {
    let mut random = Random::new(seed);
    let mut count = 0;
    for _ in 0..500 {
        let (picture, size) = random_picture(&mut random, 5, 4);
        count += usize::from(right(&picture, size) != wrong(&picture, size));
    }
    count
}

/// The map in the file built at full depth.
fn library_map(picture: &[u8], size: Size, method: Method) -> Vec<u16> {
    let file = built(picture, size, method, size.width - 1, 0).unwrap();
    read_back(&file).unwrap().2
}

/// Energy taken once for all seams: the energies are carved with the picture.
fn map_with_old_energies(picture: &[u8], size: Size, method: Method) -> Vec<u16> {
    let mut map = vec![0; size.width * size.height];
    for number in 1..size.width {
        // For each row the columns that are left.
        let left: Vec<Vec<usize>> = (0..size.height)
            .map(|i| {
                let row = &map[i * size.width..(i + 1) * size.width];
                (0..size.width).filter(|j| row[*j] == 0).collect()
            })
            .collect();
        let old_cost = |(i, place): (usize, usize), from: Option<usize>| {
            let j = left[i][place];
            // The step is as long in the picture as it was, in the same direction.
            let from = from.map(|from| j + from - place);
            pixel_cost(picture, size, method, Axis::Vertical, (i, j), from)
        };
        let mut best: Option<(u64, Vec<usize>)> = None;
        for path in paths(size.height, size.width + 1 - number) {
            let cost = path_cost(&path, old_cost);
            if best.as_ref().is_none_or(|(least, _)| cost < *least) {
                best = Some((cost, path));
            }
        }
        for (step, place) in best.unwrap().1.iter().enumerate() {
            let i = size.height - 1 - step;
            map[i * size.width + left[i][*place]] = number as u16;
        }
    }
    map
}

#[test]
fn energy_taken_once() {
    for method in METHODS {
        let right = |picture: &[u8], size| library_map(picture, size, method);
        let wrong = |picture: &[u8], size| map_with_old_energies(picture, size, method);
        assert!(differences(81, right, wrong) > 50);
    }
}

/// From the cheapest pixel of the top row, each row steps to its cheapest
/// neighbour below.
fn stepping_seam(picture: &[u8], size: Size, method: Method) -> u64 {
    let mut sum = 0;
    let mut from = None;
    for i in 0..size.height {
        let cost = |j: usize| pixel_cost(picture, size, method, Axis::Vertical, (i, j), from);
        let near = (0..size.width).filter(|j| from.is_none_or(|from| j.abs_diff(from) <= 1));
        // `min_by_key` gives the first of several.
        let cheapest = near.min_by_key(|j| cost(*j)).unwrap();
        sum += cost(cheapest);
        from = Some(cheapest);
    }
    sum
}

#[test]
fn stepping_to_the_cheapest_neighbour() {
    for method in METHODS {
        let least = |picture: &[u8], size| found(picture, size, method, Axis::Vertical).1;
        let wrong = |picture: &[u8], size| stepping_seam(picture, size, method);
        assert!(differences(82, least, wrong) > 20);
    }
}

/// Map numbers written at shrunken columns.
fn map_at_shrunken_columns(picture: &[u8], size: Size, method: Method) -> Vec<u16> {
    let mut map = vec![0; size.width * size.height];
    let mut left = picture.to_vec();
    let mut left_size = size;
    for number in 1..size.width {
        let (columns, _) = plain_seam(&left, left_size, method, Axis::Vertical);
        for (i, column) in columns.iter().enumerate() {
            map[i * size.width + usize::from(*column)] = number as u16;
        }
        left = after_cut(
            &left,
            left_size,
            channels(size.kind),
            Axis::Vertical,
            &columns,
        );
        left_size = size_after_cut(left_size, Axis::Vertical);
    }
    map
}

#[test]
fn numbers_at_shrunken_columns() {
    for method in METHODS {
        let right = |picture: &[u8], size| library_map(picture, size, method);
        let wrong = |picture: &[u8], size| map_at_shrunken_columns(picture, size, method);
        assert!(differences(83, right, wrong) > 50);
    }
}

/// New pixels averaged from other new pixels: each of the u growths doubles
/// one seam in the picture that the growth before gave.
fn grown_from_grown(picture: &[u8], size: Size, method: Method) -> Vec<u8> {
    let bytes = channels(size.kind);
    let map = map(picture, size, method, size.width - 1);
    let mut shown = Vec::new();
    for i in 0..size.height {
        let pixels = &picture[i * size.width * bytes..(i + 1) * size.width * bytes];
        let mut row: Vec<(usize, Vec<u8>)> = pixels
            .chunks(bytes)
            .map(<[u8]>::to_vec)
            .enumerate()
            .collect();
        for number in 1..=size.width / 2 {
            let numbers = &map[i * size.width..(i + 1) * size.width];
            let origin = numbers
                .iter()
                .position(|it| usize::from(*it) == number)
                .unwrap();
            let place = row
                .iter()
                .position(|(column, _)| *column == origin)
                .unwrap();
            let is_last = origin == size.width - 1;
            let other = if is_last { place - 1 } else { place + 1 };
            let new = (0..bytes)
                .map(|c| ((u16::from(row[place].1[c]) + u16::from(row[other].1[c])) / 2) as u8)
                .collect();
            // A new pixel has no column of its own.
            row.insert(place + usize::from(!is_last), (usize::MAX, new));
        }
        for (_, pixel) in row {
            shown.extend_from_slice(&pixel);
        }
    }
    shown
}

/// The picture with the first row's samples all the way down in its last two
/// columns: seams run there, for they have no vertical differences. Only where
/// both columns are doubled does a new pixel stand beside one that is doubled
/// later. By `forward` a column goes first where its neighbours are alike, so the
/// last column is made like the one before the last two.
fn with_quiet_end(picture: &[u8], size: Size, method: Method) -> Vec<u8> {
    let bytes = channels(size.kind);
    let length = size.width * bytes;
    let columns = if method == FORWARD { 3 } else { 2 };
    let start = length.saturating_sub(columns * bytes);
    let mut quiet = picture.to_vec();
    for row in quiet.chunks_mut(length) {
        row[start..].copy_from_slice(&picture[start..length]);
        if method == FORWARD {
            row.copy_within(start..start + bytes, length - bytes);
        }
    }
    quiet
}

#[test]
fn averages_of_new_pixels() {
    for method in METHODS {
        let widest = |picture: &[u8], size: Size| {
            let picture = with_quiet_end(picture, size, method);
            let file = built(&picture, size, method, size.width - 1, size.width / 2).unwrap();
            shown(&file, size.width + size.width / 2).unwrap().1
        };
        let wrong = |picture: &[u8], size| {
            let picture = with_quiet_end(picture, size, method);
            grown_from_grown(&picture, size, method)
        };
        let count = differences(84, widest, wrong);
        assert!(count > 20, "{method:?}: {count}");
    }
}

/// The verdict on the file with the word of one method and the map by another.
fn verdict_on(picture: &[u8], size: Size, word: Method, by: Method) -> Result<(), u8> {
    let depth = size.width - 1;
    let map = map(picture, size, by, depth);
    verdict(text(picture, &map, size, word, depth, 0).as_bytes())
}

/// Judging by one energy whatever the file says: a file that the other made is
/// then refused, and one with the wrong map accepted.
#[test]
fn one_energy_for_every_file() {
    for (always, other) in PAIRS {
        let right = |picture: &[u8], size: Size| {
            let file = built(picture, size, other, size.width - 1, 0).unwrap();
            checked(&file).map(|_| ())
        };
        let wrong = |picture: &[u8], size: Size| verdict_on(picture, size, always, other);
        assert!(differences(87, right, wrong) > 50);
        let right = |picture: &[u8], size: Size| {
            let map = library_map(picture, size, always);
            let file = text(picture, &map, size, other, size.width - 1, 0);
            checked(file.as_bytes()).map(|_| ())
        };
        let wrong = |picture: &[u8], size: Size| verdict_on(picture, size, always, always);
        assert!(differences(88, right, wrong) > 50);
    }
}

/// Building by one energy whatever is told, or writing one word whatever is
/// told.
#[test]
fn one_energy_for_every_picture() {
    for (told, other) in PAIRS {
        let file = |picture: &[u8], size: Size, word, by| {
            let depth = size.width - 1;
            let map = map(picture, size, by, depth);
            text(picture, &map, size, word, depth, 0).into_bytes()
        };
        let right = |picture: &[u8], size: Size| built(picture, size, told, size.width - 1, 0);
        let same = |picture: &[u8], size: Size| Ok(file(picture, size, told, told));
        assert_eq!(differences(89, right, same), 0);
        let by_other = |picture: &[u8], size: Size| Ok(file(picture, size, told, other));
        assert!(differences(89, right, by_other) > 50);
        let other_word = |picture: &[u8], size: Size| Ok(file(picture, size, other, told));
        assert_eq!(differences(89, right, other_word), 500);
    }
}
