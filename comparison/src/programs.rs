//! The programs `seams` and `fit`, run as processes.

use std::env;
use std::io::{self, Read, Write};
use std::os::unix::process::ExitStatusExt;
use std::path::PathBuf;
use std::process::{Child, ChildStdin, ChildStdout, Command, Stdio};
use std::sync::mpsc;
use std::thread;
use std::time::Duration;

/// The most bytes of input; one more is refused by 8.
pub const MOST_INPUT: usize = 65_536;

/// The most pixels that a program reads, and the most that it writes.
pub const MOST_PIXELS: usize = 1_024;

/// Names the folder with the programs, if not the folder where they are built.
const FOLDER: &str = "COMPARISON_PROGRAMS";

/// How long the rest of an input is held back.
const PAUSE: Duration = Duration::from_millis(2);

/// A program whose output isn't closed after so long is killed.
const LIMIT: Duration = Duration::from_secs(60);

#[derive(Clone, Copy, Debug, PartialEq, Eq)]
pub enum Program {
    Seams,
    Fit,
}

/// What a program reads from standard input.
pub struct Input {
    pub bytes: Vec<u8>,
    /// How many bytes come first. The rest comes after a pause, so that the
    /// program sees a short read which isn't the end.
    pub pause: Option<usize>,
}

/// What a program wrote to standard output, and the signal that ended it, if
/// one did. Nothing is promised of standard error and of the exit status.
#[derive(Clone, PartialEq, Eq)]
pub struct Run {
    pub written: Vec<u8>,
    pub signal: Option<i32>,
}

impl Program {
    pub fn name(self) -> &'static str {
        match self {
            Program::Seams => "seams",
            Program::Fit => "fit",
        }
    }

    /// What the reference writes for an input.
    pub fn by_reference(self, input: &[u8]) -> Vec<u8> {
        match self {
            Program::Seams => reference::seams_program(input),
            Program::Fit => reference::fit_program(input),
        }
    }

    pub fn run(self, input: &Input) -> Run {
        let started = start(&mut Command::new(self.path()));
        let child =
            started.unwrap_or_else(|error| panic!("{}", missing().unwrap_or(error.to_string())));
        outcome(child, input, LIMIT)
    }

    fn path(self) -> PathBuf {
        folder().join(self.name())
    }
}

fn start(command: &mut Command) -> io::Result<Child> {
    command
        .stdin(Stdio::piped())
        .stdout(Stdio::piped())
        .stderr(Stdio::null())
        .spawn()
}

/// The input is written and the output read at the same time, so that neither
/// waits for the other. A program that takes longer than the limit is killed: a
/// signal ended it then.
fn outcome(mut child: Child, input: &Input, limit: Duration) -> Run {
    let stdin = child.stdin.take().expect("standard input is a pipe");
    let stdout = child.stdout.take().expect("standard output is a pipe");
    let (sender, output) = mpsc::channel();
    let written = thread::scope(|scope| {
        scope.spawn(|| write(stdin, input));
        scope.spawn(move || sender.send(read(stdout)));
        output.recv_timeout(limit).or_else(|_| {
            child.kill().expect("the program is killed");
            output.recv()
        })
    });
    let status = child.wait().expect("the program ends");
    Run {
        written: written.expect("output is read"),
        signal: status.signal(),
    }
}

fn read(mut stdout: ChildStdout) -> Vec<u8> {
    let mut written = Vec::new();
    stdout.read_to_end(&mut written).expect("output is read");
    written
}

/// Writes the input and closes the pipe. A program may stop reading where it
/// knows that the input is too long, so a pipe closed by it is no error.
fn write(mut stdin: ChildStdin, input: &Input) {
    let (first, rest) = input.bytes.split_at(input.pause.unwrap_or(0));
    if stdin.write_all(first).is_err() {
        return;
    }
    if input.pause.is_some() {
        thread::sleep(PAUSE);
    }
    let _ = stdin.write_all(rest);
}

fn folder() -> PathBuf {
    match env::var_os(FOLDER) {
        Some(folder) => PathBuf::from(folder),
        None => PathBuf::from(concat!(env!("CARGO_MANIFEST_DIR"), "/../target/bin")),
    }
}

/// A refusal as the programs write it.
pub fn refusal(number: u64) -> Vec<u8> {
    format!("(refused {number})\n").into_bytes()
}

/// The number of the refusal that was written, or 0 for an answer.
pub fn number(written: &[u8]) -> u64 {
    let numbers = 1..=11;
    let mut refused = numbers.filter(|number| refusal(*number) == written);
    refused.next().unwrap_or(0)
}

/// Says which program is missing, if one is.
pub fn missing() -> Option<String> {
    let mut all = [Program::Seams, Program::Fit].into_iter();
    let missing = all.find(|program| !program.path().is_file())?;
    let path = missing.path();
    Some(format!(
        "{} is missing: run `./carve programs` first",
        path.display()
    ))
}

#[cfg(test)]
mod tests {
    use super::*;

    const PICTURE: &[u8] = b"P5\n3 2\n255\n\x0a\x0a\x28\x0a\x32\x28";
    const FILE: &[u8] = b"(multi\n(size 3 2 grey)\n(range 2 1)\n(energy edge)\n\
        (row 10 10 40)\n(row 10 50 40)\n(map 1 0 2)\n(map 1 0 2)\n)\n";

    fn written(program: Program, bytes: &[u8], pause: Option<usize>) -> Vec<u8> {
        let bytes = bytes.to_vec();
        let run = program.run(&Input { bytes, pause });
        assert_eq!(run.signal, None);
        run.written
    }

    #[test]
    fn the_worked_picture() {
        assert_eq!(missing(), None);
        assert_eq!(written(Program::Seams, PICTURE, None), FILE);
        let input = [b"3\n", FILE].concat();
        assert_eq!(written(Program::Fit, &input, None), PICTURE);
    }

    #[test]
    fn an_input_may_come_in_two_pieces() {
        for place in 0..=PICTURE.len() {
            assert_eq!(written(Program::Seams, PICTURE, Some(place)), FILE);
        }
    }

    #[test]
    fn numbers_of_refusals() {
        assert_eq!(number(b"(refused 8)\n"), 8);
        assert_eq!(number(b"(refused 11)\n"), 11);
        assert_eq!(number(b"(refused 1)"), 0);
        assert_eq!(number(b"(multi\n"), 0);
        assert_eq!(number(b""), 0);
    }

    /// Though it doesn't read its input, which is longer than a pipe holds.
    #[test]
    fn a_program_that_does_not_end_is_killed() {
        let input = Input {
            bytes: vec![0; 1 << 20],
            pause: None,
        };
        let child = start(Command::new("sleep").arg("1000")).unwrap();
        let run = outcome(child, &input, Duration::from_millis(100));
        assert_eq!(run.signal, Some(9));
    }

    #[test]
    fn inputs_longer_than_a_pipe_holds() {
        for program in [Program::Seams, Program::Fit] {
            for (length, number) in [(MOST_INPUT, 1), (MOST_INPUT + 1, 8), (1 << 20, 8)] {
                for pause in [None, Some(0), Some(MOST_INPUT), Some(length)] {
                    let written = written(program, &vec![b' '; length], pause);
                    assert_eq!(written, refusal(number));
                }
            }
        }
    }
}
