//! The arguments of the program.

use std::ops::Range;

pub const USAGE: &str = "usage: comparison [--cases N] [--seed S] [--case K]";

const CASES: u64 = 480_000;
const SEED: u64 = 1;

pub struct Options {
    pub seed: u64,
    pub cases: Range<u64>,
    /// Whether one case is repeated alone.
    pub alone: bool,
}

impl Options {
    pub fn read(mut arguments: impl Iterator<Item = String>) -> Result<Options, String> {
        let mut options = Options {
            seed: SEED,
            cases: 0..CASES,
            alone: false,
        };
        while let Some(name) = arguments.next() {
            let number = number(&name, arguments.next())?;
            options.take(&name, number)?;
        }
        Ok(options)
    }

    fn take(&mut self, name: &str, number: u64) -> Result<(), String> {
        match name {
            "--seed" => self.seed = number,
            "--cases" if number > 0 => self.cases = 0..number,
            "--case" if number < u64::MAX => {
                self.cases = number..number + 1;
                self.alone = true;
            }
            _ => return Err(format!("{name} {number} is not understood")),
        }
        Ok(())
    }
}

fn number(name: &str, value: Option<String>) -> Result<u64, String> {
    let number = value.and_then(|value| value.parse().ok());
    number.ok_or_else(|| format!("{name}: a number is missing"))
}

#[cfg(test)]
mod tests {
    use super::*;

    fn read(line: &str) -> Result<Options, String> {
        Options::read(line.split_whitespace().map(String::from))
    }

    #[test]
    fn numbers_are_taken() {
        let options = read("--seed 5 --cases 70").ok().unwrap();
        assert_eq!(
            (options.seed, options.cases, options.alone),
            (5, 0..70, false)
        );
        let options = read("--case 8").ok().unwrap();
        assert_eq!(
            (options.seed, options.cases, options.alone),
            (1, 8..9, true)
        );
    }

    #[test]
    fn other_arguments_are_refused() {
        for line in ["--cases", "--cases 0", "--seed x", "--other 1", "3"] {
            assert!(read(line).is_err(), "{line}");
        }
    }
}
