//! Writes what the test program `trials` is expected to write: the operations
//! on the same generated pictures, by this implementation.

mod files;
mod rooms;

use reference::{cut, cut_marked, energies, find, find_marked, remove_object, retarget, row};
use reference::{Axis, Columns, Ending, EnergyRule, Kind, Method, Rows, Size};
use std::fmt::Display;

/// Pseudo-random numbers below 65536.
struct Numbers {
    seed: u64,
}

impl Numbers {
    fn next(&mut self) -> u64 {
        self.seed = (self.seed * 25173 + 13849) % 65536;
        self.seed
    }

    /// A sample of few values, so that many are equal.
    fn sample(&mut self) -> u8 {
        (self.next() / 256 % 4 * 60) as u8
    }

    /// A mark: half are plain, and a few are over 2.
    fn mark(&mut self) -> u8 {
        match self.next() / 1024 {
            0..32 => 0,
            32..48 => 1,
            48..63 => 2,
            _ => 3,
        }
    }
}

fn main() {
    let mut numbers = Numbers { seed: 1 };
    for energy in EnergyRule::ALL {
        trials(Method { energy }, &mut numbers);
    }
}

/// All trials by one method.
fn trials(method: Method, numbers: &mut Numbers) {
    for height in 1..=4 {
        for width in 1..=6 {
            for kind in [Kind::Grey, Kind::Rgb] {
                let size = Size {
                    width,
                    height,
                    kind,
                };
                trial(size, method, numbers);
            }
        }
    }
    for budget in 0..4 {
        for width in 1..=4 {
            for kind in [Kind::Grey, Kind::Rgb] {
                let size = Size {
                    width,
                    height: 2,
                    kind,
                };
                println!("{}", removal_line(size, method, budget, numbers));
            }
        }
    }
    for (width, height, kind) in [(4, 2, Kind::Grey), (3, 3, Kind::Rgb)] {
        let size = Size {
            width,
            height,
            kind,
        };
        retarget_lines(size, method, numbers);
    }
    files::trials(method, numbers);
    rooms::trials(method, numbers);
}

/// How the removal of an object ends with its count, or the number given; the
/// picture's bytes, the marks and an end of the work space.
fn removal_line(size: Size, method: Method, budget: u16, numbers: &mut Numbers) -> String {
    let mut space = [0; 72].map(|_| numbers.sample());
    let mut marks = [0; 72].map(|_| numbers.mark());
    let pixels = size.height * size.width;
    let picture = &mut space[..pixels * size.kind.channels()];
    let marks = &mut marks[..pixels];
    let mut work = [1; 768];
    let ended = match remove_object(picture, marks, size, method, budget, &mut work) {
        Ok((Ending::Done, count)) => format!("done {count}"),
        Ok((Ending::Narrow, count)) => format!("narrow {count}"),
        Ok((Ending::Spent, count)) => format!("spent {count}"),
        Ok((Ending::Blocked, count)) => format!("blocked {count}"),
        Err(number) => number.to_string(),
    };
    let (picture, marks, work) = (listed(picture), listed(marks), listed(&work[767..]));
    format!("{ended}{picture} |{marks} |{work}")
}

/// A line for each count of rows and of columns up to 2: the number given, the
/// total, the output space and an end of the work space.
fn retarget_lines(size: Size, method: Method, numbers: &mut Numbers) {
    let space = [0; 72].map(|_| numbers.sample());
    let picture = &space[..size.height * size.width * size.kind.channels()];
    for rows in 0..3 {
        for columns in 0..3 {
            let mut out = [7; 20];
            let mut work = [1; 2100];
            let (rows, columns) = (Rows(rows), Columns(columns));
            let given = retarget(picture, size, method, rows, columns, &mut out, &mut work);
            println!("{}{}{}", answer(given), listed(&out), listed(&work[2099..]));
        }
    }
}

/// One picture: lines for its seams and cuts along both axes, without marks
/// and with them, for each of its rows and for the row below the last.
fn trial(size: Size, method: Method, numbers: &mut Numbers) {
    let space = [0; 72].map(|_| numbers.sample());
    let marks = [0; 72].map(|_| numbers.mark());
    let pixels = size.height * size.width;
    let (picture, marks) = (&space[..pixels * size.kind.channels()], &marks[..pixels]);
    for axis in [Axis::Vertical, Axis::Horizontal] {
        println!("{}", find_line(picture, size, method, axis));
    }
    for axis in [Axis::Vertical, Axis::Horizontal] {
        println!("{}", cut_line(picture, size, method, axis));
    }
    for axis in [Axis::Vertical, Axis::Horizontal] {
        println!("{}", marked_line(picture, marks, size, method, axis));
    }
    for r in 0..=size.height {
        println!("{}", row_line(picture, size, method, r));
    }
}

/// The number given and the cost.
fn answer(found: Result<u64, u8>) -> String {
    match found {
        Ok(cost) => format!("0 {cost}"),
        Err(number) => number.to_string(),
    }
}

/// Each number after a blank.
fn listed<T: Display>(numbers: &[T]) -> String {
    let words: Vec<String> = numbers.iter().map(|n| format!(" {n}")).collect();
    words.concat()
}

/// The number given, the cost, the seam's space and an end of the work space.
fn find_line(picture: &[u8], size: Size, method: Method, axis: Axis) -> String {
    let mut seam = [9; 8];
    let mut work = [1; 768];
    let found = find(picture, size, method, axis, &mut seam, &mut work);
    answer(found) + &listed(&seam) + &listed(&work[767..])
}

/// The number given, the cost, and the picture's bytes.
fn cut_line(picture: &[u8], size: Size, method: Method, axis: Axis) -> String {
    let mut copy = picture.to_vec();
    let mut seam = [9; 8];
    let mut work = [1; 768];
    let found = cut(&mut copy, size, method, axis, &mut seam, &mut work);
    answer(found) + &listed(&copy)
}

/// What finding by marks gives, and what a cut by marks gives: the number, the
/// cost, the picture's bytes and the marks.
fn marked_line(picture: &[u8], marks: &[u8], size: Size, method: Method, axis: Axis) -> String {
    let mut seam = [9; 8];
    let mut work = [1; 768];
    let found = find_marked(picture, marks, size, method, axis, &mut seam, &mut work);
    let line = answer(found) + &listed(&seam) + &listed(&work[767..]);
    let (mut copy, mut left) = (picture.to_vec(), marks.to_vec());
    let cut = cut_marked(
        &mut copy, &mut left, size, method, axis, &mut seam, &mut work,
    );
    format!(
        "{line} | {}{} |{}",
        answer(cut),
        listed(&copy),
        listed(&left)
    )
}

/// The number given, the energies' space and the row.
fn row_line(picture: &[u8], size: Size, method: Method, r: usize) -> String {
    let mut out = [7; 8];
    let number = energies(picture, size, method, r, &mut out)
        .err()
        .unwrap_or(0);
    format!(
        "{number}{} |{}",
        listed(&out),
        listed(row(picture, size, r))
    )
}
