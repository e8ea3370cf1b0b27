//! Finding and cutting against trial of all connected paths.

use crate::definitions::*;
use crate::helpers::*;
use crate::random::Random;
use reference::{Axis, Method, Size};

/// Every picture of a size with samples of the given values.
fn all_buffers(count: usize, values: &[u8]) -> Vec<Vec<u8>> {
    let mut all = vec![Vec::new()];
    for _ in 0..count {
        let mut longer = Vec::new();
        for buffer in &all {
            for value in values {
                let mut buffer = buffer.clone();
                buffer.push(*value);
                longer.push(buffer);
            }
        }
        all = longer;
    }
    all
}

fn exchanged(buffer: &[u8], size: Size, bytes: usize) -> Vec<u8> {
    let mut exchanged = Vec::new();
    for j in 0..size.width {
        for i in 0..size.height {
            let start = (i * size.width + j) * bytes;
            exchanged.extend_from_slice(&buffer[start..start + bytes]);
        }
    }
    exchanged
}

fn exchanged_size(size: Size) -> Size {
    Size {
        width: size.height,
        height: size.width,
        kind: size.kind,
    }
}

/// Finding and cutting without marks, by all methods and along both axes,
/// against the trial.
fn judge_plain(picture: &[u8], size: Size) {
    for (method, axis) in WAYS {
        let (lines, cost) = plain_seam(picture, size, method, axis);
        assert_eq!(found(picture, size, method, axis), (lines.clone(), cost));
        let last_line = match axis {
            Axis::Vertical => size.width == 1,
            Axis::Horizontal => size.height == 1,
        };
        let answer = cut_once(picture, size, method, axis);
        if last_line {
            assert_eq!(answer, Err(13));
        } else {
            let left = after_cut(picture, size, channels(size.kind), axis, &lines);
            assert_eq!(answer, Ok((padded(left, picture.len()), lines, cost)));
        }
    }
}

/// The same with marks.
fn judge_marked(picture: &[u8], marks: &[u8], size: Size) {
    for (method, axis) in WAYS {
        let by_trial = seam(picture, marks, size, method, axis);
        let answer = found_marked(picture, marks, size, method, axis);
        assert_eq!(answer, by_trial.clone().ok_or(12));
        let last_line = match axis {
            Axis::Vertical => size.width == 1,
            Axis::Horizontal => size.height == 1,
        };
        let answer = cut_marked_once(picture, marks, size, method, axis);
        match by_trial {
            None => assert_eq!(answer, Err(12)),
            Some(_) if last_line => assert_eq!(answer, Err(13)),
            Some((lines, cost)) => {
                let left = after_cut(picture, size, channels(size.kind), axis, &lines);
                let marks_left = after_cut(marks, size, 1, axis, &lines);
                let expected = (
                    padded(left, picture.len()),
                    padded(marks_left, marks.len()),
                    lines,
                    cost,
                );
                assert_eq!(answer, Ok(expected));
            }
        }
    }
}

/// What coming to a pixel costs from its left in the row above, from straight
/// above and from its right. In the first row all three are what it costs there.
/// Left of column 0 there is no place, but its neighbour there is the pixel
/// itself.
fn steps_by_definition(picture: &[u8], size: Size, method: Method, i: usize, j: usize) -> [u64; 3] {
    let cost = |from| pixel_cost(picture, size, method, Axis::Vertical, (i, j), from);
    if i == 0 {
        return [cost(None); 3];
    }
    let left = match j.checked_sub(1) {
        Some(before) => cost(Some(before)),
        None => from_before_the_first(picture, size, method, i),
    };
    [left, cost(Some(j)), cost(Some(j + 1))]
}

/// What coming to the first pixel of a row costs from its left: turned around,
/// the row's last pixel is come to from its right.
fn from_before_the_first(picture: &[u8], size: Size, method: Method, i: usize) -> u64 {
    if method != FORWARD {
        return pixel_cost(picture, size, method, Axis::Vertical, (i, 0), None);
    }
    let bytes = channels(size.kind);
    let rows = picture.chunks(size.width * bytes);
    let turned: Vec<u8> = rows
        .flat_map(|row| row.rchunks(bytes).flatten())
        .copied()
        .collect();
    let last = size.width - 1;
    pixel_cost(
        &turned,
        size,
        method,
        Axis::Vertical,
        (i, last),
        Some(last + 1),
    )
}

#[test]
fn the_trial_lists_every_path_in_order() {
    for (length, breadth) in [(1, 1), (1, 4), (4, 1), (2, 3), (3, 3), (4, 5), (5, 4)] {
        let listed = paths(length, breadth);
        assert!(listed.windows(2).all(|pair| pair[0] < pair[1]));
        // Against a count over all lists of places.
        let places: Vec<u8> = (0..breadth as u8).collect();
        let connected = all_buffers(length, &places)
            .into_iter()
            .filter(|path| path.windows(2).all(|step| step[0].abs_diff(step[1]) <= 1))
            .count();
        assert_eq!(listed.len(), connected);
    }
    assert_eq!(paths(2, 3).len(), 7);
}

#[test]
fn energies_against_the_definition() {
    let mut random = Random::new(1);
    for _ in 0..1_000 {
        let (picture, size) = random_picture(&mut random, 5, 5);
        let method = random.pick(&METHODS);
        for i in 0..size.height {
            let mut out = vec![OLD_ENERGY; size.width + 2];
            reference::energies(&picture, size, method, i, &mut out).unwrap();
            for j in 0..size.width {
                let cost = pixel_cost(&picture, size, method, Axis::Vertical, (i, j), None);
                assert_eq!(u64::from(out[j]), cost);
            }
            assert_eq!(out[size.width..], [OLD_ENERGY; 2]);
        }
    }
}

/// Also at the side edges, where no path comes from the side.
#[test]
fn step_costs_against_the_definition() {
    let mut random = Random::new(8);
    for _ in 0..1_000 {
        let (picture, size) = random_picture(&mut random, 5, 5);
        let method = random.pick(&METHODS);
        for i in 0..size.height {
            let spaces = step_costs_of(&picture, size, method, i);
            for j in 0..size.width {
                let given = spaces.each_ref().map(|space| u64::from(space[j]));
                assert_eq!(given, steps_by_definition(&picture, size, method, i, j));
            }
        }
    }
}

#[test]
fn all_small_pictures_of_two_values() {
    for width in 1..=4 {
        for height in 1..=3 {
            if width * height > 10 {
                continue;
            }
            for picture in all_buffers(width * height, &[5, 6]) {
                judge_plain(&picture, grey(width, height));
            }
        }
    }
}

#[test]
fn all_small_pictures_of_three_values() {
    for (width, height) in [(1, 6), (6, 1), (2, 3), (3, 2), (2, 2), (4, 1), (1, 4)] {
        for picture in all_buffers(width * height, &[0, 1, 3]) {
            judge_plain(&picture, grey(width, height));
        }
    }
}

#[test]
fn random_pictures() {
    let mut random = Random::new(2);
    for _ in 0..4_000 {
        let (picture, size) = random_picture(&mut random, 5, 5);
        judge_plain(&picture, size);
    }
}

#[test]
fn random_pictures_of_all_values() {
    let mut random = Random::new(3);
    let values: Vec<u8> = (0..=255).collect();
    for _ in 0..500 {
        let size = size(
            random.between(1, 6),
            random.between(1, 6),
            random.pick(&KINDS),
        );
        let picture = random.bytes(byte_count(size), &values);
        judge_plain(&picture, size);
    }
}

#[test]
fn all_marks_on_small_pictures() {
    for (width, height) in [(1, 1), (1, 3), (3, 1), (2, 2)] {
        for picture in all_buffers(width * height, &[0, 1]) {
            for marks in all_buffers(width * height, &[0, 1, 2]) {
                judge_marked(&picture, &marks, grey(width, height));
            }
        }
    }
    for (width, height) in [(3, 2), (2, 3)] {
        for picture in [
            [10, 10, 40, 10, 50, 40],
            [0, 0, 0, 0, 0, 0],
            [1, 0, 1, 0, 1, 0],
        ] {
            for marks in all_buffers(6, &[0, 1, 2]) {
                judge_marked(&picture, &marks, grey(width, height));
            }
        }
    }
}

#[test]
fn random_marks_on_random_pictures() {
    let mut random = Random::new(4);
    let mut blocked = 0;
    for _ in 0..6_000 {
        let (picture, size) = random_picture(&mut random, 5, 5);
        let marks = random_marks(&mut random, size);
        judge_marked(&picture, &marks, size);
        blocked += usize::from(seam(&picture, &marks, size, EDGE, Axis::Vertical).is_none());
    }
    // Both cases occur often.
    assert!(blocked > 500 && blocked < 5_500);
}

#[test]
fn marks_all_zero_change_nothing() {
    let mut random = Random::new(5);
    for _ in 0..500 {
        let (picture, size) = random_picture(&mut random, 7, 7);
        let marks = vec![0; size.width * size.height];
        for (method, axis) in WAYS {
            let plain = found(&picture, size, method, axis);
            let marked = found_marked(&picture, &marks, size, method, axis);
            assert_eq!(marked, Ok(plain));
        }
    }
}

#[test]
fn horizontal_is_vertical_of_the_exchanged_picture() {
    let mut random = Random::new(6);
    for _ in 0..500 {
        let (picture, size) = random_picture(&mut random, 8, 8);
        let marks = random_marks(&mut random, size);
        let turned = exchanged(&picture, size, channels(size.kind));
        let turned_marks = exchanged(&marks, size, 1);
        let turned_size = exchanged_size(size);
        for method in METHODS {
            assert_eq!(
                found_marked(&picture, &marks, size, method, Axis::Horizontal),
                found_marked(&turned, &turned_marks, turned_size, method, Axis::Vertical)
            );
        }
    }
}

/// Energy is worked out anew: cut after cut down to one column, each seam
/// against the trial in the picture that is left.
#[test]
fn cuts_in_a_row() {
    let mut random = Random::new(7);
    for _ in 0..300 {
        let (mut picture, mut size) = random_picture(&mut random, 6, 5);
        let method = random.pick(&METHODS);
        for axis in AXES {
            let lines = |size: Size| match axis {
                Axis::Vertical => size.width,
                Axis::Horizontal => size.height,
            };
            while lines(size) > 1 {
                let (seam, cost) = plain_seam(&picture, size, method, axis);
                let (left, cut_seam, cut_cost) = cut_once(&picture, size, method, axis).unwrap();
                assert_eq!((cut_seam, cut_cost), (seam, cost));
                size = size_after_cut(size, axis);
                picture = left[..byte_count(size)].to_vec();
            }
            assert_eq!(cut_once(&picture, size, method, axis), Err(13));
        }
    }
}
