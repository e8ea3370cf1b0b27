//! Libraries that are wrong by `forward`. The pictures that are drawn have to tell
//! each of them by its seams.

use crate::methods::FORWARD;
use crate::neighbours::told;
use crate::paths::{backward, Small};
use reference::Axis;

/// What a path pays for the pixel of a line and a place, which it comes to from a
/// place of the line before, if there is one.
type Rule = fn(&Small, usize, usize, Option<usize>) -> u64;

fn forward(small: &Small, line: usize, place: usize, from: Option<usize>) -> u64 {
    let meeting = small.meeting(line, place, from);
    meeting
        .into_iter()
        .map(|[one, other]| small.apart(one, other))
        .sum()
}

/// C_U, whichever way the path comes.
fn across(small: &Small, line: usize, place: usize, _: Option<usize>) -> u64 {
    forward(small, line, place, None)
}

/// C_L and C_R exchanged.
fn exchanged(small: &Small, line: usize, place: usize, from: Option<usize>) -> u64 {
    let [before, after] = small.sides(line, place);
    let aside = |from: usize| {
        let above = small.at(line - 1, place);
        let side = if from < place { after } else { before };
        small.apart(above, side)
    };
    let aside = from.filter(|from| *from != place).map_or(0, aside);
    across(small, line, place, from) + aside
}

/// In the first line C_L, with the last line above it.
fn line_above_the_first(small: &Small, line: usize, place: usize, from: Option<usize>) -> u64 {
    if from.is_some() {
        return forward(small, line, place, from);
    }
    let lines = small.size.width + small.size.height - small.places();
    let [before, _] = small.sides(line, place);
    across(small, line, place, from) + small.apart(small.at(lines - 1, place), before)
}

/// What the pixel costs a path along the other axis that comes straight on.
fn not_turned(small: &Small, line: usize, place: usize, _: Option<usize>) -> u64 {
    let axis = match small.axis {
        Axis::Vertical => Axis::Horizontal,
        Axis::Horizontal => Axis::Vertical,
    };
    across(&Small { axis, ..*small }, place, line, None)
}

/// Past the side edge nothing, where it should be the pixel itself.
fn nothing_past_the_side(small: &Small, line: usize, place: usize, from: Option<usize>) -> u64 {
    let cost = forward(small, line, place, from);
    if place == 0 || place + 1 == small.places() {
        cost - across(small, line, place, None)
    } else {
        cost
    }
}

const WRONG: [(&str, Rule); 5] = [
    ("straight on whichever way", across),
    ("left and right exchanged", exchanged),
    ("a line above the first", line_above_the_first),
    ("not turned", not_turned),
    ("nothing past the side", nothing_past_the_side),
];

/// The seam of a small picture by a rule.
fn seam_by(small: &Small, rule: Rule) -> Vec<usize> {
    let cost =
        |path: &Vec<usize>| small.cost_by(path, |line, place, from| rule(small, line, place, from));
    let order = |path: &Vec<usize>| (cost(path), backward(path));
    small.paths().into_iter().min_by_key(order).unwrap()
}

/// The seam where each line's way is chosen by the sums before the step, and what
/// the step costs is added after the choice.
fn chosen_ahead_of_the_step(small: &Small) -> Vec<usize> {
    let places = small.places();
    let lines = small.size.width + small.size.height - places;
    let mut best: Vec<(u64, Vec<usize>)> = (0..places)
        .map(|place| (forward(small, 0, place, None), vec![place]))
        .collect();
    for line in 1..lines {
        let next = |place: usize| {
            let near = (0..places).filter(|from| from.abs_diff(place) <= 1);
            let from = near.min_by_key(|from| best[*from].0).unwrap();
            let (sum, path) = &best[from];
            let sum = sum + forward(small, line, place, Some(from));
            (sum, [path.as_slice(), &[place]].concat())
        };
        best = (0..places).map(next).collect();
    }
    best.into_iter().min_by_key(|(sum, _)| *sum).unwrap().1
}

#[test]
fn wrong_libraries_are_told_by_the_seams() {
    for axis in [Axis::Vertical, Axis::Horizontal] {
        assert_eq!(told(|small| seam_by(small, forward), FORWARD, axis), 0);
        for (name, rule) in WRONG {
            let count = told(|small| seam_by(small, rule), FORWARD, axis);
            assert!(count > 20, "{name}: {count}");
        }
        let count = told(chosen_ahead_of_the_step, FORWARD, axis);
        assert!(count > 20, "added after the choice: {count}");
    }
}
