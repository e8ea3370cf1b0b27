//! The limits of the programs: 1,024 pixels, read or written, and 65,536 bytes
//! of input.

use crate::definitions::*;
use crate::helpers::*;
use crate::programs::{fit, netpbm, refused};
use reference::{fit_program, seams_program};

#[test]
fn pixels_that_seams_reads() {
    let samples = vec![7; 1_536];
    // 2 by 512 has 1,024 pixels, the others have more.
    for (size, served) in [
        (grey(32, 32), true),
        (grey(2, 512), true),
        (grey(512, 1), true),
        (grey(33, 32), false),
        (grey(41, 25), false),
        (grey(205, 5), false),
        (grey(3, 512), false),
    ] {
        let pixels = &samples[..size.width * size.height];
        let expected = if served {
            built(pixels, size, EDGE, size.width - 1, size.width / 2).unwrap()
        } else {
            refused(8)
        };
        assert_eq!(seams_program(&netpbm(size, pixels)), expected, "{size:?}");
    }
    // A sample missing or in excess gives 4 first, a side over 512 gives 3.
    let over = grey(33, 32);
    for count in [33 * 32 - 1, 33 * 32 + 1] {
        let input = netpbm(over, &samples[..count]);
        assert_eq!(seams_program(&input), refused(4));
    }
    let wide = netpbm(grey(513, 1), &samples[..513]);
    assert_eq!(seams_program(&wide), refused(3));
    // The largest text: rgb samples of three digits, many rows or columns.
    for size in [rgb(2, 512), rgb(512, 2), rgb(32, 32)] {
        let picture = vec![255; 3_072];
        let file = built(&picture, size, EDGE, size.width - 1, size.width / 2).unwrap();
        assert_eq!(seams_program(&netpbm(size, &picture)), file);
    }
}

#[test]
fn pixels_that_fit_writes() {
    let samples = vec![7; 1_024];
    // At the greatest width served there are at most 1,024 pixels; 7 comes
    // ahead of 8. 512 by 1 grows wider than a picture may be.
    for (size, served, over, unoffered) in [
        (grey(32, 32), 32, vec![33, 48], 49),
        (grey(204, 5), 204, vec![205, 306], 307),
        (grey(512, 1), 768, vec![], 769),
    ] {
        let pixels = &samples[..size.width * size.height];
        let file = seams_program(&netpbm(size, pixels));
        let shown = grey(served, size.height);
        let expected = netpbm(shown, &samples[..served * size.height]);
        assert_eq!(fit(served, &file), expected, "{size:?}");
        for width in over {
            assert_eq!(fit(width, &file), refused(8), "{size:?} {width}");
        }
        assert_eq!(fit(unoffered, &file), refused(7), "{size:?}");
    }
}

#[test]
fn pixels_that_fit_reads() {
    let samples = vec![7; 33 * 32];
    // A file of more than 1,024 pixels is refused by 8 at each width offered.
    for size in [grey(41, 25), grey(205, 5), grey(33, 32)] {
        let pixels = &samples[..size.width * size.height];
        let file = built(pixels, size, EDGE, 1, 0).unwrap();
        assert_eq!(fit(size.width, &file), refused(8), "{size:?}");
        assert_eq!(fit(size.width - 1, &file), refused(8), "{size:?}");
        assert_eq!(fit(size.width - 2, &file), refused(7), "{size:?}");
    }
    // With a bad map 8, with a bad range 6, with a wrong count 4, with a broken
    // form 1.
    let file = built(&samples, grey(33, 32), EDGE, 1, 0).unwrap();
    let file = String::from_utf8(file).unwrap();
    let bad_map = file.replace("(map 1 0", "(map 2 0");
    assert_ne!(file, bad_map);
    assert_eq!(fit(33, bad_map.as_bytes()), refused(8));
    assert_eq!(fit(34, bad_map.as_bytes()), refused(7));
    let bad_range = file.replace("(range 1 0)", "(range 33 0)");
    assert_eq!(fit(90, bad_range.as_bytes()), refused(6));
    let wrong_count = file.replacen("(map 1 0", "(map 1 0 0", 1);
    assert_eq!(fit(33, wrong_count.as_bytes()), refused(4));
    assert_eq!(fit(33, file.trim_end().as_bytes()), refused(1));
}

/// Pixels written over the limit: 7 ahead of 8, and 8 ahead of 9, 10 and 11.
#[test]
fn pixels_written_with_a_bad_map() {
    // All energies are 7, so the seams are columns 0 and 1.
    let samples: Vec<u8> = (0..1_024).map(|place| (place % 32 * 7) as u8).collect();
    let file = built(&samples, grey(32, 32), EDGE, 2, 2).unwrap();
    let file = String::from_utf8(file).unwrap();
    let row = file.lines().find(|line| line.starts_with("(map")).unwrap();
    let zeros = " 0".repeat(30);
    assert_eq!(row, format!("(map 1 2{zeros})"));
    for (number, map) in [
        (9, format!("(map 1 1{zeros})")),
        (10, format!("(map 2{zeros} 1)")),
    ] {
        let bad = file.replacen(row, &map, 1);
        assert_eq!(fit(32, bad.as_bytes()), refused(number));
        assert_eq!(fit(33, bad.as_bytes()), refused(8));
        assert_eq!(fit(35, bad.as_bytes()), refused(7));
    }
    let bad = file.replace(row, &format!("(map 2 1{zeros})"));
    assert_eq!(fit(32, bad.as_bytes()), refused(11));
    assert_eq!(fit(33, bad.as_bytes()), refused(8));
    assert_eq!(fit(29, bad.as_bytes()), refused(7));
}

#[test]
fn input_on_both_sides_of_its_limit() {
    // Exactly 65,536 bytes are read as usual.
    let mut input = netpbm(grey(3, 2), &EXAMPLE);
    input.resize(65_536, 0);
    assert_eq!(seams_program(&input), refused(4));
    input.push(0);
    assert_eq!(seams_program(&input), refused(8));
    assert_eq!(seams_program(&vec![b'x'; 65_536]), refused(1));
    assert_eq!(seams_program(&vec![b'x'; 65_537]), refused(8));
    assert_eq!(fit_program(&vec![b'x'; 65_536]), refused(1));
    assert_eq!(fit_program(&vec![b'x'; 65_537]), refused(8));
    // The width line counts as input: a file whose last row line is filled up
    // with samples, so that it has a good form and a wrong count.
    for (length, number) in [(65_535, 4), (65_536, 4), (65_537, 8)] {
        let mut text = format!("3\n{EXAMPLE_FILE}");
        let missing = length - text.len();
        let mut filling = " 1".repeat(missing / 2);
        if missing % 2 == 1 {
            filling.push('1');
        }
        text = text.replace("(row 10 50 40)", &format!("(row 10 50 40{filling})"));
        assert_eq!(text.len(), length);
        assert_eq!(fit_program(text.as_bytes()), refused(number), "{length}");
    }
}

/// A file that checking accepts, as long as an input may be: it has too many
/// pixels, which comes after 7. With one more byte 8 comes first.
#[test]
fn accepted_files_on_both_sides_of_the_input_limit() {
    for (length, offered, other) in [(65_536, 8, 7), (65_537, 8, 8)] {
        let size = grey(120, 90);
        let mut samples = vec![200; byte_count(size)];
        let longest = built(&samples, size, EDGE, 0, 0).unwrap().len() + "120\n".len();
        let over = longest - length;
        samples[..over / 2].fill(2);
        samples[over / 2..over / 2 + over % 2].fill(20);
        let file = built(&samples, size, EDGE, 0, 0).unwrap();
        assert_eq!(file.len() + "120\n".len(), length);
        assert_eq!(fit(120, &file), refused(offered));
        assert_eq!(fit(121, &file), refused(other));
        assert_eq!(fit(119, &file), refused(other));
    }
}
