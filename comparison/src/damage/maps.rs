//! Changes to a file's map or samples. Its form, size, range and counts stay.

use crate::contents::samples;
use crate::methods::METHODS;
use crate::random::Random;
use crate::texts::{map_of, Parts};
use reference::Method;

type Change = fn(&mut Random, &mut Parts);

const CHANGES: [Change; 10] = [
    replace_number,
    exchange_in_row,
    exchange_in_row,
    exchange_seams,
    exchange_rows,
    move_aside,
    move_aside_and_break,
    take_other_map,
    take_map_of_other_method,
    replace_sample,
];

pub fn change(random: &mut Random, parts: &mut Parts) {
    random.pick(&CHANGES)(random, parts);
}

/// A number of a row becomes another of the row, 0, one too large or any: 9,
/// mostly.
fn replace_number(random: &mut Random, parts: &mut Parts) {
    let depth = parts.range.depth as u16;
    let row = any_row(random, parts);
    let place = random.below(row.len());
    let other = row[random.below(row.len())];
    let any = random.number() as u16;
    row[place] = random.pick(&[other, 0, depth + 1, 65535, any]);
}

/// Two numbers of a row change places: 10 or 11, mostly.
fn exchange_in_row(random: &mut Random, parts: &mut Parts) {
    let row = any_row(random, parts);
    let (one, other) = (random.below(row.len()), random.below(row.len()));
    row.swap(one, other);
}

/// Two seams change their numbers.
fn exchange_seams(random: &mut Random, parts: &mut Parts) {
    let (one, other) = (any_seam(random, parts), any_seam(random, parts));
    for number in parts.map.iter_mut().flatten() {
        if *number == one {
            *number = other;
        } else if *number == other {
            *number = one;
        }
    }
}

fn exchange_rows(random: &mut Random, parts: &mut Parts) {
    let count = parts.map.len();
    parts.map.swap(random.below(count), random.below(count));
}

/// A seam changes places with what stands beside it in each row: it may stay
/// connected, but it isn't the one found.
fn move_aside(random: &mut Random, parts: &mut Parts) {
    let seam = any_seam(random, parts);
    let right = random.one_in(2);
    move_seam(parts, seam, right);
}

/// The first seam moves aside, and in one row the outermost of the others
/// change places: 10 of a later one comes ahead of 11 of the first.
fn move_aside_and_break(random: &mut Random, parts: &mut Parts) {
    let right = random.one_in(2);
    move_seam(parts, 1, right);
    let row = any_row(random, parts);
    let first = row.iter().position(|number| *number != 1);
    let last = row.iter().rposition(|number| *number != 1);
    if let (Some(first), Some(last)) = (first, last) {
        row.swap(first, last);
    }
}

fn move_seam(parts: &mut Parts, seam: u16, right: bool) {
    for row in &mut parts.map {
        let Some(place) = row.iter().position(|number| *number == seam) else {
            continue;
        };
        if right && place + 1 < row.len() {
            row.swap(place, place + 1);
        } else if !right && place > 0 {
            row.swap(place, place - 1);
        }
    }
}

/// The map of another picture of the size.
fn take_other_map(random: &mut Random, parts: &mut Parts) {
    let other = samples(random, parts.size);
    parts.map = map_of(&other, parts.size, parts.method, parts.range);
}

/// The map that the picture has by another method.
fn take_map_of_other_method(random: &mut Random, parts: &mut Parts) {
    let others: Vec<Method> = METHODS
        .into_iter()
        .filter(|it| *it != parts.method)
        .collect();
    let other = random.pick(&others);
    parts.map = map_of(&parts.samples, parts.size, other, parts.range);
}

fn replace_sample(random: &mut Random, parts: &mut Parts) {
    let place = random.below(parts.samples.len());
    parts.samples[place] = random.byte();
}

fn any_row<'a>(random: &mut Random, parts: &'a mut Parts) -> &'a mut Vec<u16> {
    let count = parts.map.len();
    &mut parts.map[random.below(count)]
}

/// The number of a seam, or 0 where there is none.
fn any_seam(random: &mut Random, parts: &Parts) -> u16 {
    let depth = parts.range.depth;
    random.between(1.min(depth), depth) as u16
}

#[cfg(test)]
mod tests {
    use super::super::tests::{answers, drawn};
    use super::*;

    #[test]
    fn each_change_gives_its_numbers() {
        for (change, numbers) in [
            (replace_number as Change, &[0, 9, 11][..]),
            (exchange_in_row, &[0, 10, 11]),
            (exchange_seams, &[0, 10, 11]),
            (exchange_rows, &[0, 10, 11]),
            (move_aside, &[0, 10, 11]),
            (move_aside_and_break, &[0, 10, 11]),
            (take_other_map, &[0, 11]),
            (take_map_of_other_method, &[0, 11]),
            (replace_sample, &[0, 11]),
        ] {
            let answers = answers(3, |random, mut parts| {
                change(random, &mut parts);
                parts.text()
            });
            assert!(answers.iter().all(|answer| numbers.contains(answer)));
            assert!(answers.len() > 1 && answers.contains(&0));
        }
    }

    /// The place of a seam in each row of the picture left before it.
    fn places(map: &[Vec<u16>], seam: u16) -> Vec<usize> {
        let left = |number: &&u16| **number == 0 || **number >= seam;
        let place = |row: &Vec<u16>| row.iter().filter(left).position(|n| *n == seam);
        map.iter().map(|row| place(row).unwrap()).collect()
    }

    fn is_connected(places: &[usize]) -> bool {
        places.windows(2).all(|pair| pair[0].abs_diff(pair[1]) <= 1)
    }

    #[test]
    fn broken_seams_come_behind_others_that_are_not_found() {
        let mut random = Random::new(4);
        let mut count = 0;
        for _ in 0..1000 {
            let parts = drawn(&mut random);
            if parts.range.depth < 2 {
                continue;
            }
            let mut moved = parts.clone();
            move_aside_and_break(&mut random, &mut moved);
            let first = places(&moved.map, 1);
            let other = first != places(&parts.map, 1) && is_connected(&first);
            let depth = parts.range.depth as u16;
            let broken = (2..=depth).any(|seam| !is_connected(&places(&moved.map, seam)));
            count += usize::from(other && broken);
        }
        assert!(count > 50, "{count}");
    }
}
