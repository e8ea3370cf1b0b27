//! The operations that are compared.

mod build;
mod chain;
mod check;
mod cut;
mod cut_marked;
mod energies;
mod every_cut;
mod every_map;
mod every_path;
mod find;
mod find_marked;
mod fit;
mod one_file;
mod one_input;
mod one_row;
mod one_seam;
mod read;
mod remove;
mod retarget;
mod row;
mod row_at;
mod seams;
mod show;
mod sides;
mod step_costs;

use crate::difference::Difference;
use crate::random::Random;
use reference::Size;

/// Makes one case, runs both sides and gives the number that both answered.
/// The turn is the case's number among the cases of its operation.
type Compare = fn(&mut Random, u64) -> Result<u64, Difference>;

pub struct Operation {
    pub name: &'static str,
    pub compare: Compare,
}

/// Bytes of work space: 32 for each pixel.
fn work_bytes(size: Size) -> usize {
    32 * size.width * size.height
}

pub const OPERATIONS: [Operation; 24] = [
    Operation {
        name: "row",
        compare: row::compare,
    },
    Operation {
        name: "energies",
        compare: energies::compare,
    },
    Operation {
        name: "step_costs",
        compare: step_costs::compare,
    },
    Operation {
        name: "find",
        compare: find::compare,
    },
    Operation {
        name: "cut",
        compare: cut::compare,
    },
    Operation {
        name: "find_marked",
        compare: find_marked::compare,
    },
    Operation {
        name: "cut_marked",
        compare: cut_marked::compare,
    },
    Operation {
        name: "remove",
        compare: remove::compare,
    },
    Operation {
        name: "retarget",
        compare: retarget::compare,
    },
    Operation {
        name: "build",
        compare: build::compare,
    },
    Operation {
        name: "check",
        compare: check::compare,
    },
    Operation {
        name: "read",
        compare: read::compare,
    },
    Operation {
        name: "show",
        compare: show::compare,
    },
    Operation {
        name: "row_at",
        compare: row_at::compare,
    },
    Operation {
        name: "find, every path",
        compare: every_path::compare_find,
    },
    Operation {
        name: "cut, every path",
        compare: every_path::compare_cut,
    },
    Operation {
        name: "find_marked, every path",
        compare: every_path::compare_find_marked,
    },
    Operation {
        name: "cut_marked, every path",
        compare: every_path::compare_cut_marked,
    },
    Operation {
        name: "remove, every path",
        compare: every_cut::compare_remove,
    },
    Operation {
        name: "retarget, every path",
        compare: every_cut::compare_retarget,
    },
    Operation {
        name: "build, every path",
        compare: every_map::compare_build,
    },
    Operation {
        name: "show, every path",
        compare: every_map::compare_show,
    },
    Operation {
        name: "seams",
        compare: seams::compare,
    },
    Operation {
        name: "fit",
        compare: fit::compare,
    },
];

#[cfg(test)]
mod tests {
    use super::*;
    use crate::pictures::ROUND;
    use std::ops::Range;

    /// Turns of an operation, and the numbers that are answered in them.
    type Answered = (&'static str, Range<u64>, &'static [u64]);

    /// Every number that an operation may answer.
    const ANSWERED: [Answered; OPERATIONS.len()] = [
        ("row", 0..4 * ROUND, &[0, 1, 8]),
        ("energies", 0..4 * ROUND, &[0, 1, 2, 3, 4, 8]),
        ("step_costs", 0..4 * ROUND, &[0, 1, 2, 3, 4, 8]),
        ("find", 2 * ROUND..8 * ROUND, &[0, 1, 2, 3, 4, 8]),
        ("cut", 2 * ROUND..8 * ROUND, &[0, 1, 2, 3, 4, 8, 13]),
        (
            "find_marked",
            2 * ROUND..8 * ROUND,
            &[0, 1, 2, 3, 4, 5, 8, 12],
        ),
        (
            "cut_marked",
            2 * ROUND..8 * ROUND,
            &[0, 1, 2, 3, 4, 5, 8, 12, 13],
        ),
        ("remove", ROUND..5 * ROUND, &[0, 1, 2, 3, 4, 5, 8]),
        ("retarget", ROUND..5 * ROUND, &[0, 1, 2, 3, 4, 7, 8]),
        ("build", ROUND..5 * ROUND, &[0, 1, 2, 3, 4, 6, 8]),
        ("check", ROUND..9 * ROUND, &[0, 1, 2, 3, 4, 6, 8, 9, 10, 11]),
        ("read", ROUND..9 * ROUND, &[0, 1, 2, 3, 4, 6, 8, 9, 10, 11]),
        (
            "show",
            ROUND..9 * ROUND,
            &[0, 1, 2, 3, 4, 6, 7, 8, 9, 10, 11],
        ),
        ("row_at", 0..4 * ROUND, &[0, 1, 4, 8]),
        ("find, every path", 0..200, &[0]),
        ("cut, every path", 0..200, &[0, 13]),
        ("find_marked, every path", 0..200, &[0, 12]),
        ("cut_marked, every path", 0..200, &[0, 12, 13]),
        ("remove, every path", 0..200, &[0]),
        ("retarget, every path", 0..200, &[0]),
        ("build, every path", 0..200, &[0]),
        ("show, every path", 0..200, &[0]),
        ("seams", ROUND..5 * ROUND, &[0, 1, 2, 3, 4, 8]),
        (
            "fit",
            ROUND..5 * ROUND,
            &[0, 1, 2, 3, 4, 6, 7, 8, 9, 10, 11],
        ),
    ];

    #[test]
    fn every_number_occurs() {
        for (name, turns, numbers) in ANSWERED {
            let operation = OPERATIONS.iter().find(|o| o.name == name).unwrap();
            let compare = |turn| (operation.compare)(&mut Random::of_case(1, turn), turn);
            let answers: Vec<u64> = turns.map(|turn| compare(turn).ok().unwrap()).collect();
            for number in numbers {
                assert!(answers.contains(number), "{name}: no answer {number}");
            }
        }
    }
}
