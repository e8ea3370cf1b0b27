//! Object removal against the steps of the specification, each seam by trial.

use crate::definitions::*;
use crate::helpers::*;
use crate::random::Random;
use reference::{Axis, Ending, Method, Size};

type Outcome = ((Ending, u16), Vec<u8>, Vec<u8>);

/// The outcome by definition, the buffers padded with zeros.
fn expected(picture: &[u8], marks: &[u8], size: Size, method: Method, budget: u16) -> Outcome {
    let mut left = picture.to_vec();
    let mut marks_left = marks.to_vec();
    let mut size_left = size;
    let mut count = 0;
    let ending = loop {
        if !marks_left.contains(&2) {
            break Ending::Done;
        }
        if size_left.width == 1 {
            break Ending::Narrow;
        }
        if count == budget {
            break Ending::Spent;
        }
        match seam(&left, &marks_left, size_left, method, Axis::Vertical) {
            None => break Ending::Blocked,
            Some((columns, _)) => {
                let bytes = channels(size.kind);
                left = after_cut(&left, size_left, bytes, Axis::Vertical, &columns);
                marks_left = after_cut(&marks_left, size_left, 1, Axis::Vertical, &columns);
                size_left = size_after_cut(size_left, Axis::Vertical);
                count += 1;
            }
        }
    };
    (
        (ending, count),
        padded(left, picture.len()),
        padded(marks_left, marks.len()),
    )
}

fn outcome(picture: &[u8], marks: &[u8], size: Size, method: Method, budget: u16) -> Outcome {
    let mut lent = picture.to_vec();
    let mut lent_marks = marks.to_vec();
    let mut work = work_space(size);
    let answer =
        reference::remove_object(&mut lent, &mut lent_marks, size, method, budget, &mut work)
            .unwrap();
    assert!(is_zero(&work));
    (answer, lent, lent_marks)
}

#[test]
fn random_objects() {
    for method in METHODS {
        let mut random = Random::new(21);
        let mut seen = [0; 4];
        for _ in 0..1_500 {
            let (picture, size) = random_picture(&mut random, 5, 4);
            let marks = random_marks(&mut random, size);
            for budget in [0, 1, 2, 3, 4, 5, 65_535] {
                let outcome = outcome(&picture, &marks, size, method, budget);
                assert_eq!(outcome, expected(&picture, &marks, size, method, budget));
                seen[outcome.0 .0 as usize] += 1;
            }
        }
        assert!(seen.iter().all(|times| *times > 50));
    }
}

#[test]
fn no_mark_two_is_done() {
    // Even with budget 0 and at width 1, and with all pixels protected.
    let done = ((Ending::Done, 0), vec![7, 8], vec![0, 0]);
    assert_eq!(outcome(&[7, 8], &[0, 0], grey(1, 2), EDGE, 0), done);
    let done = ((Ending::Done, 0), vec![7, 8], vec![1, 1]);
    assert_eq!(outcome(&[7, 8], &[1, 1], grey(2, 1), EDGE, 0), done);
}

#[test]
fn narrow_before_spent_before_blocked() {
    // Width 1, budget 0, and row 1 protected: narrow.
    let (ending, _, _) = outcome(&[7, 8], &[2, 1], grey(1, 2), EDGE, 0);
    assert_eq!(ending, (Ending::Narrow, 0));
    // Budget 0 and row 1 protected: spent.
    let (ending, _, _) = outcome(&[7, 8, 9, 9], &[2, 0, 1, 1], grey(2, 2), EDGE, 0);
    assert_eq!(ending, (Ending::Spent, 0));
    // With a budget: blocked.
    let (ending, _, _) = outcome(&[7, 8, 9, 9], &[2, 0, 1, 1], grey(2, 2), EDGE, 1);
    assert_eq!(ending, (Ending::Blocked, 0));
    // Done before spent when the last cut takes the last mark 2.
    let (ending, picture, marks) = outcome(&[7, 8], &[2, 0], grey(2, 1), EDGE, 1);
    assert_eq!(ending, (Ending::Done, 1));
    assert_eq!((picture, marks), (vec![8, 0], vec![0, 0]));
}

#[test]
fn removal_frees_count_columns() {
    let picture = [1, 2, 3, 4, 5, 6, 7, 8];
    let marks = [0, 2, 2, 0, 0, 2, 2, 1];
    let (ending, left, marks_left) = outcome(&picture, &marks, grey(4, 2), EDGE, 9);
    assert_eq!(ending, (Ending::Done, 2));
    assert_eq!(left, [1, 4, 5, 8, 0, 0, 0, 0]);
    assert_eq!(marks_left, [0, 0, 0, 1, 0, 0, 0, 0]);
}
