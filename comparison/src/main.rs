//! Compares the verified library and programs with the reference on inputs made
//! from a seed.

#![deny(unsafe_code)]

mod axes;
mod carved;
mod contents;
mod damage;
mod difference;
mod faults;
mod full_files;
mod lengths;
mod library;
mod limits;
mod marks;
mod methods;
#[cfg(test)]
mod neighbours;
mod netpbm;
mod operations;
mod options;
mod paths;
mod pictures;
mod programs;
mod random;
mod ranges;
mod spaces;
#[cfg(test)]
mod steps;
mod texts;
mod width_lines;

use difference::Difference;
use operations::{Operation, OPERATIONS};
use options::Options;
use random::Random;
use std::collections::BTreeMap;
use std::panic::catch_unwind;
use std::process::ExitCode;

/// Characters of a section in the report of a run; a case repeated alone is
/// written out whole.
const SECTION: usize = 4000;

/// How often each number was answered.
type Tally = BTreeMap<u64, u64>;

fn main() -> ExitCode {
    let options = match Options::read(std::env::args().skip(1)) {
        Ok(options) => options,
        Err(message) => {
            eprintln!("{message}\n{}", options::USAGE);
            return ExitCode::from(2);
        }
    };
    if let Some(message) = programs::missing() {
        eprintln!("{message}");
        return ExitCode::from(2);
    }
    run(&options)
}

fn run(options: &Options) -> ExitCode {
    let mut tallies = [const { Tally::new() }; OPERATIONS.len()];
    for case in options.cases.clone() {
        let (place, turn) = place_and_turn(case);
        match compared(&OPERATIONS[place], options.seed, case, turn) {
            Ok(number) => *tallies[place].entry(number).or_default() += 1,
            Err(difference) => {
                report(options, OPERATIONS[place].name, case, &difference);
                return ExitCode::FAILURE;
            }
        }
    }
    summary(&tallies);
    ExitCode::SUCCESS
}

/// The operation of a case, and the case's number among those of the operation.
fn place_and_turn(case: u64) -> (usize, u64) {
    let count = OPERATIONS.len() as u64;
    ((case % count) as usize, case / count)
}

/// A panic on either side counts as a difference.
fn compared(operation: &Operation, seed: u64, case: u64, turn: u64) -> Result<u64, Difference> {
    let compare = || (operation.compare)(&mut Random::of_case(seed, case), turn);
    catch_unwind(compare).unwrap_or_else(|_| {
        let mut difference = Difference::new();
        difference.value("ended by", "a panic");
        Err(difference)
    })
}

fn report(options: &Options, name: &str, case: u64, difference: &Difference) {
    let seed = options.seed;
    let most = if options.alone { usize::MAX } else { SECTION };
    eprintln!("difference in {name}, repeat with --seed {seed} --case {case}");
    eprintln!("{}", difference.text(most));
}

/// A line for each operation that was tried, and one for all.
fn summary(tallies: &[Tally]) {
    let mut all = 0;
    for (operation, tally) in OPERATIONS.iter().zip(tallies) {
        let count: u64 = tally.values().sum();
        if count > 0 {
            println!("{}: {count} cases, {}", operation.name, answers(tally));
        }
        all += count;
    }
    println!("{all} cases, 0 differences");
}

fn answers(tally: &Tally) -> String {
    let times = |(number, count)| format!("{number}: {count}");
    let all: Vec<String> = tally.iter().map(times).collect();
    format!("answers {}", all.join(", "))
}
