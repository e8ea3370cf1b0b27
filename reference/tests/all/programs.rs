//! The programs, against the library's operations and the definitions.

use crate::definitions::*;
use crate::forms::edited;
use crate::helpers::*;
use crate::random::Random;
use crate::verdict::{before_the_map, contents, map_verdict};
use reference::{fit_program, seams_program, Kind, Size};
use std::io::Write;
use std::process::{Command, Stdio};

pub fn netpbm(size: Size, samples: &[u8]) -> Vec<u8> {
    let magic = if size.kind == Kind::Grey { 5 } else { 6 };
    let header = format!("P{magic}\n{} {}\n255\n", size.width, size.height);
    [header.as_bytes(), samples].concat()
}

pub fn refused(number: u8) -> Vec<u8> {
    format!("(refused {number})\n").into_bytes()
}

pub fn fit(width: usize, file: &[u8]) -> Vec<u8> {
    fit_program(&[format!("{width}\n").as_bytes(), file].concat())
}

#[test]
fn seams_writes_what_the_definitions_give() {
    let mut random = Random::new(61);
    for _ in 0..300 {
        let (picture, size) = random_picture(&mut random, 5, 4);
        let depth = size.width - 1;
        let map = map(&picture, size, EDGE, depth);
        let expected = text(&picture, &map, size, EDGE, depth, size.width / 2);
        assert_eq!(
            seams_program(&netpbm(size, &picture)),
            expected.into_bytes()
        );
    }
}

/// What `fit` writes of the file of a picture.
fn judge_fit(file: &[u8], picture: &[u8], size: Size) {
    for width in 0..=20 {
        let expected = match shown(file, width) {
            Ok((size, pixels)) => netpbm(size, &pixels),
            Err(number) => refused(number),
        };
        assert_eq!(fit(width, file), expected);
    }
    assert_eq!(fit(size.width, file), netpbm(size, picture));
    assert_eq!(fit(0, file), refused(7));
}

#[test]
fn fit_writes_each_width() {
    let mut random = Random::new(62);
    for kind in KINDS {
        for _ in 0..20 {
            let size = size(random.between(1, 12), random.between(1, 12), kind);
            let values: Vec<u8> = (0..=255).collect();
            let picture = random.bytes(byte_count(size), &values);
            let by_seams = seams_program(&netpbm(size, &picture));
            judge_fit(&by_seams, &picture, size);
            for method in [FLAT, FORWARD] {
                let file = built(&picture, size, method, size.width - 1, size.width / 2);
                judge_fit(&file.unwrap(), &picture, size);
            }
        }
    }
}

#[test]
fn fit_on_the_example() {
    let edge = [
        b"\x0a\x0a\x0a\x28\x0a\x1e\x32\x28".as_slice(),
        b"\x0a\x28\x32\x28",
        b"\x0a\x32",
    ];
    let flat = [
        b"\x0a\x0a\x19\x28\x0a\x32\x2d\x28".as_slice(),
        b"\x0a\x0a\x0a\x32",
        b"\x0a\x0a",
    ];
    let forward = [
        b"\x0a\x0a\x0a\x28\x0a\x32\x2d\x28".as_slice(),
        b"\x0a\x28\x0a\x28",
        b"\x28\x28",
    ];
    let files = [EXAMPLE_FILE, FLAT_FILE, FORWARD_FILE];
    for (file, [four, two, one]) in files.into_iter().zip([edge, flat, forward]) {
        let file = file.as_bytes();
        assert_eq!(fit(4, file), [b"P5\n4 2\n255\n", four].concat());
        assert_eq!(fit(2, file), [b"P5\n2 2\n255\n", two].concat());
        assert_eq!(fit(1, file), [b"P5\n1 2\n255\n", one].concat());
        for width in [0, 5, 65_535] {
            assert_eq!(fit(width, file), refused(7));
        }
    }
}

/// Edited texts to `fit`: 1 to 6, then 7, then 9 to 11.
#[test]
fn fit_on_edited_texts() {
    let mut random = Random::new(63);
    for _ in 0..20_000 {
        let file = random.pick(&[EXAMPLE_FILE, FLAT_FILE, FORWARD_FILE]);
        let text = edited(&mut random, file);
        let width = random.between(0, 6);
        let expected = || -> Result<(), u8> {
            let it = contents(&text).ok_or(1)?;
            before_the_map(&it)?;
            let width = width as u64;
            if width + it.depth < it.width || width > it.width + it.growth {
                return Err(7);
            }
            map_verdict(&it)
        };
        let answer = fit(width, &text);
        match expected() {
            Ok(()) => assert!(answer.starts_with(b"P5\n")),
            Err(number) => assert_eq!(answer, refused(number)),
        }
    }
}

/// What a program of `src/bin` writes for an input.
fn run(path: &str, input: &[u8]) -> Vec<u8> {
    let mut command = Command::new(path);
    let command = command.stdin(Stdio::piped()).stdout(Stdio::piped());
    let mut child = command.spawn().unwrap();
    // The programs read all input before they write.
    child.stdin.take().unwrap().write_all(input).unwrap();
    child.wait_with_output().unwrap().stdout
}

#[test]
fn programs_read_standard_input() {
    let picture = netpbm(grey(3, 2), &EXAMPLE);
    let input = format!("4\n{EXAMPLE_FILE}").into_bytes();
    let long = vec![b' '; 200_000];
    for input in [b"".as_slice(), &picture, &long] {
        let written = run(env!("CARGO_BIN_EXE_seams"), input);
        assert_eq!(written, seams_program(input));
    }
    for input in [b"".as_slice(), &input, &long] {
        let written = run(env!("CARGO_BIN_EXE_fit"), input);
        assert_eq!(written, fit_program(input));
    }
}
