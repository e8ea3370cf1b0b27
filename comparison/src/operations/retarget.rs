//! Retargeting.

use super::sides::{Compared, Sides};
use super::work_bytes;
use crate::difference::Difference;
use crate::faults::Faults;
use crate::library::{self, Answer};
use crate::methods::{named_method, NamedMethod};
use crate::pictures::{self, byte_count, row_bytes, NamedSize, ROUND};
use crate::random::Random;
use crate::spaces::{space, Lent};
use reference::{Columns, Kind, Rows, Size};

/// One round in so many has the largest pictures.
const RARITY: u64 = 32;

/// The most pixels that all cells of a table have together, on average.
const MOST: usize = 15_000;

/// The most rows and the most columns that are removed.
const LARGEST_COUNT: usize = 64;

/// Copies of the picture that the work space holds besides.
const COPIES: usize = 66;

/// Widths, heights and counts of rows and columns at the edges of what is
/// served, in both kinds at the end of every round.
const EDGES: [(usize, usize, usize, usize); 12] = [
    (65, 1, 0, 64),
    (1, 65, 64, 0),
    (65, 2, 1, 64),
    (2, 65, 64, 1),
    (64, 1, 0, 64),
    (1, 64, 64, 0),
    (66, 1, 0, 65),
    (1, 66, 65, 0),
    (512, 1, 0, 64),
    (1, 512, 64, 0),
    (512, 1, 0, 65),
    (1, 512, 65, 0),
];

/// The largest table, in the first round.
const WHOLE: (usize, usize, usize, usize) = (65, 65, 64, 64);

/// What retargeting is given.
pub struct Case {
    size: NamedSize,
    pub method: NamedMethod,
    pub rows: Rows,
    pub columns: Columns,
    buffers: Buffers,
}

/// All lent buffers.
#[derive(Clone, PartialEq)]
pub struct Buffers {
    pub picture: Lent<u8>,
    pub out: Lent<u8>,
    pub work: Lent<u8>,
}

pub fn compare(random: &mut Random, turn: u64) -> Result<u64, Difference> {
    let case = Case::of_turn(random, turn);
    case.compare("reference", by_reference, by_library)
}

fn by_reference(case: &Case, buffers: &mut Buffers) -> Answer {
    // The reference has no unknown kind or method, which is refused by 1.
    let Some((size, method)) = case.size.known_by(case.method) else {
        return Answer::refused(1);
    };
    let (picture, out) = (buffers.picture.part(), buffers.out.part_mut());
    let work = buffers.work.part_mut();
    match reference::retarget(picture, size, method, case.rows, case.columns, out, work) {
        Ok(total) => Answer::served(total),
        Err(number) => Answer::refused(u64::from(number)),
    }
}

pub fn by_library(case: &Case, buffers: &mut Buffers) -> Answer {
    library::retarget(
        buffers.picture.part_mut(),
        case.size,
        case.method,
        case.rows,
        case.columns,
        buffers.out.part_mut(),
        buffers.work.part_mut(),
    )
}

/// The size and the counts that a turn brings without any fault.
fn edge_of_turn(turn: u64) -> Option<(Size, Rows, Columns)> {
    let from_end = (ROUND - 1 - turn % ROUND) as usize;
    let (width, height, rows, columns) = match EDGES.get(from_end / 2) {
        Some(edge) => *edge,
        None if turn == 0 => WHOLE,
        None => return None,
    };
    let size = Size {
        width,
        height,
        kind: [Kind::Grey, Kind::Rgb][from_end % 2],
    };
    Some((size, Rows(rows), Columns(columns)))
}

/// Counts that are served, so that the table isn't too large.
fn drawn_counts(random: &mut Random, size: Size) -> (usize, usize) {
    let mut rows = drawn_count(random, size.height);
    let mut columns = drawn_count(random, size.width);
    let pixels = |rows, columns| {
        let (width, height) = (2 * size.width - columns, 2 * size.height - rows);
        (rows + 1) * (columns + 1) * width * height / 4
    };
    while rows + columns > 1 && pixels(rows, columns) > MOST {
        let larger = if rows > columns {
            &mut rows
        } else {
            &mut columns
        };
        *larger /= 2;
    }
    (rows, columns)
}

/// None, as many as there can be, or some.
fn drawn_count(random: &mut Random, side: usize) -> usize {
    let most = LARGEST_COUNT.min(side - 1);
    let some = random.between(0, most);
    random.pick(&[0, most, some, some])
}

/// A fault leaves nothing of the side, is over the largest count, or becomes
/// the right count when it is cut to 8, 16 or 32 bits.
fn named_count(random: &mut Random, count: usize, side: usize, faults: Faults) -> usize {
    if !faults.strike(random, 5) {
        return count;
    }
    let far = [
        count + (1 << 8),
        count + (1 << 16),
        count + (1 << 32),
        1 << 63,
        usize::MAX - 1,
        usize::MAX,
    ];
    let beyond = random.pick(&far);
    random.pick(&[side, side + 1, LARGEST_COUNT + 1, beyond])
}

impl Case {
    fn of_turn(random: &mut Random, turn: u64) -> Case {
        if let Some((size, rows, columns)) = edge_of_turn(turn) {
            let room = byte_count(size);
            return Case::from_counts(random, size, rows, columns, room, Faults::Never);
        }
        let (size, faults) = pictures::start(random, turn, RARITY);
        Case::from_size(random, size, faults)
    }

    pub fn from_size(random: &mut Random, size: Size, faults: Faults) -> Case {
        let (rows, columns) = drawn_counts(random, size);
        let room = byte_count(Size {
            width: size.width - columns,
            height: size.height - rows,
            kind: size.kind,
        });
        let rows = Rows(named_count(random, rows, size.height, faults));
        let columns = Columns(named_count(random, columns, size.width, faults));
        Case::from_counts(random, size, rows, columns, room, faults)
    }

    /// With so many bytes needed of the output space.
    fn from_counts(
        random: &mut Random,
        size: Size,
        rows: Rows,
        columns: Columns,
        room: usize,
        faults: Faults,
    ) -> Case {
        let named = pictures::named_size(random, size, faults);
        let work = work_bytes(size) + COPIES * byte_count(size);
        Case {
            size: named,
            method: named_method(random, faults),
            rows,
            columns,
            buffers: Buffers {
                picture: pictures::picture(random, size, named, faults),
                out: space(random, room, faults),
                work: space(random, work, faults),
            },
        }
    }
}

impl Compared<Answer> for Case {
    type Buffers = Buffers;

    fn lent(&self) -> &Buffers {
        &self.buffers
    }

    fn difference(&self, sides: Sides<Answer, Buffers>) -> Difference {
        let mut difference = Difference::new();
        difference.value("size", self.size);
        difference.value("method", self.method);
        difference.value("rows to remove", self.rows.0);
        difference.value("columns to remove", self.columns.0);
        sides.answers(&mut difference);
        let row_bytes = self.size.known().map_or(0, row_bytes);
        let picture = sides.forms(|buffers| &buffers.picture);
        difference.buffer("picture", row_bytes, picture);
        difference.buffer("out", 0, sides.forms(|buffers| &buffers.out));
        difference.buffer("work", 0, sides.forms(|buffers| &buffers.work));
        difference
    }
}

#[cfg(test)]
mod tests {
    use super::super::sides::Outcome;
    use super::*;
    use reference::Axis;

    /// The cases of some rounds without the largest pictures.
    fn cases() -> Vec<Case> {
        let case = |turn| Case::of_turn(&mut Random::of_case(1, turn), turn);
        (ROUND..4 * ROUND).map(case).collect()
    }

    #[test]
    fn every_edge_is_answered_as_the_specification_says() {
        let numbers: Vec<u64> = (2 * ROUND - 2 * EDGES.len() as u64..2 * ROUND)
            .map(|turn| Case::of_turn(&mut Random::of_case(1, turn), turn))
            .map(|case| case.outcome(by_reference).answer.number)
            .collect();
        let expected = [7, 7, 0, 0, 7, 7, 7, 7, 0, 0, 0, 0];
        assert_eq!(numbers, expected.map(|number| [number; 2]).concat());
    }

    #[test]
    fn the_first_turn_has_the_largest_table() {
        let (size, rows, columns) = edge_of_turn(0).unwrap();
        assert_eq!((size.width, size.height), (65, 65));
        assert_eq!((rows, columns), (Rows(64), Columns(64)));
        assert!((1..100).all(|turn| edge_of_turn(turn).is_none()));
    }

    #[test]
    fn counts_reach_from_none_to_a_single_row_and_column() {
        let mut random = Random::new(1);
        let size = Size {
            width: 5,
            height: 4,
            kind: Kind::Grey,
        };
        let counts: Vec<_> = (0..400).map(|_| drawn_counts(&mut random, size)).collect();
        for rows in 0..4 {
            for columns in 0..5 {
                assert!(counts.contains(&(rows, columns)), "{rows} {columns}");
            }
        }
        assert!(counts.iter().all(|(r, c)| *r < 4 && *c < 5));
    }

    #[test]
    fn tables_of_large_pictures_are_small() {
        let mut random = Random::new(2);
        let size = Size {
            width: 512,
            height: 512,
            kind: Kind::Rgb,
        };
        let counts: Vec<_> = (0..200).map(|_| drawn_counts(&mut random, size)).collect();
        assert!(counts.iter().all(|(r, c)| r + c <= 1));
        assert!(counts.contains(&(0, 1)) && counts.contains(&(1, 0)));
    }

    #[test]
    fn damaged_counts_occur() {
        let mut random = Random::new(3);
        let mut draw = || named_count(&mut random, 2, 5, Faults::Maybe);
        let counts: Vec<usize> = (0..1000).map(|_| draw()).collect();
        for count in [2, 5, 6, 65, 2 + (1 << 8), 2 + (1 << 32), usize::MAX] {
            assert!(counts.contains(&count), "no count {count}");
        }
        assert!(counts.iter().all(|count| *count == 2 || *count > 4));
    }

    /// How many of 1, 2, 3, 7 and a work space too short would refuse the case
    /// if each was judged alone.
    fn faults(case: &Case, start: Size) -> usize {
        let (m, n) = (case.size.width, case.size.height);
        let work = work_bytes(start) + COPIES * byte_count(start);
        let faults = [
            case.size.known_by(case.method).is_none(),
            m == 0 || n == 0,
            m > 512 || n > 512,
            case.rows.0.max(case.columns.0) > 64 || case.rows.0 >= n || case.columns.0 >= m,
            case.buffers.work.part().len() < work,
        ];
        faults.iter().filter(|fault| **fault).count()
    }

    #[test]
    fn several_faults_are_frequent() {
        let several = (ROUND..5 * ROUND - 100).filter(|turn| {
            let mut random = Random::of_case(1, *turn);
            let (size, strikes) = pictures::start(&mut random, *turn, RARITY);
            faults(&Case::from_size(&mut random, size, strikes), size) > 1
        });
        assert!(several.count() > ROUND as usize / 4);
    }

    /// The total and the picture that lead to the last cell by a cut along the
    /// axis, from the cell before it.
    fn way(case: &Case, axis: Axis) -> (u64, Vec<u8>) {
        let (size, method) = case.size.known_by(case.method).unwrap();
        let (r, c) = match axis {
            Axis::Vertical => (case.rows.0, case.columns.0 - 1),
            Axis::Horizontal => (case.rows.0 - 1, case.columns.0),
        };
        let before = Size {
            width: size.width - c,
            height: size.height - r,
            kind: size.kind,
        };
        let (mut picture, mut work) = (vec![0; byte_count(before)], vec![0; 100_000]);
        let (lent, rows, columns) = (case.buffers.picture.part(), Rows(r), Columns(c));
        let (left, space) = (&mut picture, &mut work);
        let total = reference::retarget(lent, size, method, rows, columns, left, space).unwrap();
        let cost = reference::cut(left, before, method, axis, &mut [0; 8], space).unwrap();
        (total + cost, picture)
    }

    /// Ties whose ways lead to different pictures are told apart, by each method.
    #[test]
    fn ties_between_the_ways_abound_and_each_way_is_taken() {
        let mut counts = [[0; 3]; 3];
        for turn in (ROUND..5 * ROUND).filter(|turn| turn % ROUND < 72) {
            let case = Case::of_turn(&mut Random::of_case(1, turn), turn);
            if case.rows.0 == 0 || case.columns.0 == 0 {
                continue;
            }
            let (by_column, one) = way(&case, Axis::Vertical);
            let (by_row, other) = way(&case, Axis::Horizontal);
            let [ties, vertical, horizontal] = &mut counts[usize::from(case.method.energy)];
            *ties += (by_column == by_row && one != other) as u32;
            *vertical += (by_column < by_row) as u32;
            *horizontal += (by_row < by_column) as u32;
        }
        assert!(
            counts.iter().flatten().all(|count| *count > 2),
            "{counts:?}"
        );
    }

    #[test]
    fn small_pictures_of_one_row_or_column_come() {
        let cases = cases();
        for (width, height) in [(1, 1), (6, 1), (1, 6)] {
            let tried = |case: &&Case| (case.size.width, case.size.height) == (width, height);
            assert!(cases.iter().any(|case| tried(&case)), "{width} {height}");
        }
    }

    /// Whether an outcome altered so is told from what the reference gives.
    fn noticed(alter: fn(&mut Outcome<Answer, Buffers>)) -> bool {
        let case = Case::of_turn(&mut Random::new(1), ROUND + 70);
        let outcome = case.outcome(by_reference);
        assert!(case.verdict("reference", &outcome, &outcome).is_ok());
        let mut altered = outcome.clone();
        alter(&mut altered);
        case.verdict("reference", &outcome, &altered).is_err()
    }

    fn last(lent: &mut Lent<u8>) -> &mut u8 {
        lent.part_mut().last_mut().unwrap()
    }

    #[test]
    fn every_altered_part_is_noticed() {
        assert!(noticed(|outcome| outcome.answer.number ^= 8));
        assert!(noticed(|outcome| outcome.answer.value += 1));
        assert!(noticed(|outcome| *last(&mut outcome.buffers.picture) ^= 1));
        assert!(noticed(|outcome| *last(&mut outcome.buffers.out) ^= 1));
        assert!(noticed(|outcome| *last(&mut outcome.buffers.work) ^= 1));
    }
}
