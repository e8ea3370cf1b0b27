//! What the programs read ahead of the samples or the file: a Netpbm header,
//! a line with a width.

use crate::helpers::*;
use crate::programs::refused;
use crate::verdict::Cursor;
use reference::{fit_program, seams_program};

#[test]
fn broken_headers() {
    for header in [
        "",
        "P",
        "P5",
        "P5\n",
        "P5\n3",
        "P5\n3 ",
        "P5\n3 2",
        "P5\n3 2\n",
        "P5\n3 2\n255",
        "P5 3 2\n255\n",
        "P5\n3\n2\n255\n",
        "P5\n3 2 255\n",
        "P5\n3  2\n255\n",
        "P5\n 3 2\n255\n",
        "P5\n3 2 \n255\n",
        "P5\n3\t2\n255\n",
        "P5\r\n3 2\r\n255\r\n",
        "P5\n# x\n3 2\n255\n",
        "P5\n03 2\n255\n",
        "P5\n3 02\n255\n",
        "P5\n3 2\n0255\n",
        "P5\n3 2\n256\n",
        "P5\n3 2\n65535\n",
        "P5\n3 2\n254\n",
        "P5\n3 2\n1\n",
        "P5\n3 2\n255 ",
        "P5\n3 2\n255\r\n",
        "P5\n65536 2\n255\n",
        "P5\n3 65536\n255\n",
        "P5\n3 2 1\n255\n",
        "P5\n3\n255\n",
        "P4\n3 2\n255\n",
        "P2\n3 2\n255\n",
        "P7\n3 2\n255\n",
        "p5\n3 2\n255\n",
        "P5\n\n3 2\n255\n",
        " P5\n3 2\n255\n",
        "P55\n3 2\n255\n",
        "P5\nx 2\n255\n",
        "P5\n-3 2\n255\n",
    ] {
        // No sample is a line end, which could end a header cut short.
        let input = [header.as_bytes(), &[77; 6]].concat();
        assert_eq!(seams_program(&input), refused(1), "{header}");
        assert_eq!(seams_program(header.as_bytes()), refused(1), "{header}");
    }
}

#[test]
fn headers_of_other_sizes() {
    for (header, number) in [
        ("P5\n0 2\n255\n", 2),
        ("P5\n3 0\n255\n", 2),
        ("P5\n0 65535\n255\n", 2),
        ("P5\n513 1\n255\n", 3),
        ("P5\n1 513\n255\n", 3),
        ("P5\n65535 65535\n255\n", 3),
        ("P5\n3 1\n255\n", 4),
        ("P5\n4 2\n255\n", 4),
        ("P6\n3 2\n255\n", 4),
        ("P5\n512 512\n255\n", 4),
    ] {
        let input = [header.as_bytes(), &EXAMPLE].concat();
        assert_eq!(seams_program(&input), refused(number), "{header}");
    }
    // 2 and 3 are given whether or not samples follow.
    assert_eq!(seams_program(b"P5\n0 2\n255\n"), refused(2));
    assert_eq!(seams_program(b"P5\n513 1\n255\n"), refused(3));
    assert_eq!(seams_program(b"P5\n3 2\n255\n"), refused(4));
    // P6 of the same six bytes is a picture of 2 by 1 pixels.
    let input = [b"P6\n2 1\n255\n".as_slice(), &EXAMPLE].concat();
    assert_eq!(
        seams_program(&input),
        built(&EXAMPLE, rgb(2, 1), EDGE, 1, 1).unwrap()
    );
}

/// Every changed byte of a header, against a reader of its own.
#[test]
fn changed_headers() {
    let expected = |input: &[u8]| -> Result<(), u8> {
        let mut cursor = Cursor { text: input, at: 0 };
        let channels = if cursor.meets("P5\n") {
            1
        } else {
            cursor.must_meet("P6\n").ok_or(1)?;
            3
        };
        let width = cursor.number(65_535).ok_or(1)?;
        cursor.must_meet(" ").ok_or(1)?;
        let height = cursor.number(65_535).ok_or(1)?;
        cursor.must_meet("\n255\n").ok_or(1)?;
        let samples = (input.len() - cursor.at) as u64;
        match (width, height) {
            (0, _) | (_, 0) => Err(2),
            (513.., _) | (_, 513..) => Err(3),
            _ if samples != width * height * channels => Err(4),
            _ if width * height > 1_024 => Err(8),
            _ => Ok(()),
        }
    };
    for header in ["P5\n3 2\n255\n", "P6\n2 1\n255\n"] {
        let input = [header.as_bytes(), &EXAMPLE].concat();
        for place in 0..=header.len() {
            for byte in 0..=255 {
                let mut inserted = input.clone();
                inserted.insert(place, byte);
                let mut replaced = input.clone();
                replaced[place] = byte;
                for input in [inserted, replaced] {
                    let answer = seams_program(&input);
                    match expected(&input) {
                        Ok(()) => assert!(answer.starts_with(b"(multi\n")),
                        Err(number) => assert_eq!(answer, refused(number)),
                    }
                }
            }
        }
    }
}

#[test]
fn width_lines() {
    for line in [
        "", "\n", "03\n", "00\n", "65536\n", " 3\n", "3 \n", "3\r\n", "x\n", "-3\n", "3 3\n",
    ] {
        let input = format!("{line}{EXAMPLE_FILE}");
        assert_eq!(fit_program(input.as_bytes()), refused(1), "{line}");
    }
    for input in ["", "3", "3\n", "3\n\n", "3"] {
        assert_eq!(fit_program(input.as_bytes()), refused(1), "{input}");
    }
    let digits = format!("{}\n{EXAMPLE_FILE}", "9".repeat(100));
    assert_eq!(fit_program(digits.as_bytes()), refused(1));
    let input = format!("3\n{}", EXAMPLE_FILE.replace("(size 3 2", "(size 0 2"));
    assert_eq!(fit_program(input.as_bytes()), refused(2));
    // A broken width line beats 2 of the file.
    let input = format!("03\n{}", EXAMPLE_FILE.replace("(size 3 2", "(size 0 2"));
    assert_eq!(fit_program(input.as_bytes()), refused(1));
}

/// Numbers of 100 digits, in a header and in a width line.
#[test]
fn numbers_of_many_digits() {
    for digit in ["0", "1", "9"] {
        let number = digit.repeat(100);
        for header in [
            format!("P5\n{number} 2\n255\n"),
            format!("P5\n3 {number}\n255\n"),
            format!("P5\n3 2\n{number}\n"),
        ] {
            let input = [header.as_bytes(), &EXAMPLE].concat();
            assert_eq!(seams_program(&input), refused(1), "{header}");
        }
        let input = format!("{number}\n{EXAMPLE_FILE}");
        assert_eq!(fit_program(input.as_bytes()), refused(1), "{number}");
    }
}
