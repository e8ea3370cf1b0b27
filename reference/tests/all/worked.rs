//! The worked values of the specification, those of `seams` by energy `edge`.

use crate::helpers::*;
use crate::retargets::retarget_work;
use reference::{Axis, Columns, Ending, FileInfo, Kind, Rows};

#[test]
fn example_file_byte_for_byte() {
    assert_eq!(
        built(&EXAMPLE, grey(3, 2), EDGE, 2, 1).unwrap(),
        EXAMPLE_FILE.as_bytes()
    );
    let input = [b"P5\n3 2\n255\n".as_slice(), &EXAMPLE].concat();
    assert_eq!(reference::seams_program(&input), EXAMPLE_FILE.as_bytes());
}

#[test]
fn example_file_is_accepted_and_read() {
    let info = FileInfo {
        size: grey(3, 2),
        method: EDGE,
        depth: 2,
        growth: 1,
    };
    assert_eq!(checked(EXAMPLE_FILE.as_bytes()), Ok(info));
    let (read_info, picture, map) = read_back(EXAMPLE_FILE.as_bytes()).unwrap();
    assert_eq!(read_info, info);
    assert_eq!(picture, EXAMPLE);
    assert_eq!(map, [1, 0, 2, 1, 0, 2]);
}

/// Horizontally 0 30 30 and 40 10 10, the last column to its left; vertically
/// 0 40 0 in both rows, the last row to the one above.
#[test]
fn example_energies() {
    let mut out = [OLD_ENERGY; 5];
    assert_eq!(
        reference::energies(&EXAMPLE, grey(3, 2), EDGE, 0, &mut out),
        Ok(())
    );
    assert_eq!(out, [0, 70, 30, OLD_ENERGY, OLD_ENERGY]);
    assert_eq!(
        reference::energies(&EXAMPLE, grey(3, 2), EDGE, 1, &mut out),
        Ok(())
    );
    assert_eq!(out, [40, 50, 10, OLD_ENERGY, OLD_ENERGY]);
}

/// Columns 0, 0 cost 0 + 40 and columns 2, 2 cost 30 + 10, all others more. In
/// the picture left, 10 40 / 50 40, the energies are 70 30 / 50 10.
#[test]
fn example_seams() {
    let first = (vec![0, 0], 40);
    assert_eq!(found(&EXAMPLE, grey(3, 2), EDGE, Axis::Vertical), first);
    let (left, seam, cost) = cut_once(&EXAMPLE, grey(3, 2), EDGE, Axis::Vertical).unwrap();
    assert_eq!((seam, cost), first);
    assert_eq!(left, [10, 40, 50, 40, 0, 0]);
    let second = cut_once(&left[..4], grey(2, 2), EDGE, Axis::Vertical).unwrap();
    assert_eq!(second, (vec![10, 50, 0, 0], vec![1, 1], 40));
}

#[test]
fn example_widths() {
    let file = EXAMPLE_FILE.as_bytes();
    assert_eq!(shown(file, 3).unwrap(), (grey(3, 2), EXAMPLE.to_vec()));
    assert_eq!(shown(file, 2).unwrap(), (grey(2, 2), vec![10, 40, 50, 40]));
    assert_eq!(shown(file, 1).unwrap(), (grey(1, 2), vec![10, 50]));
    let four = vec![10, 10, 10, 40, 10, 30, 50, 40];
    assert_eq!(shown(file, 4).unwrap(), (grey(4, 2), four));
    assert_eq!(shown(file, 0), Err(7));
    assert_eq!(shown(file, 5), Err(7));
}

#[test]
fn example_rows_at_widths() {
    let mut out = [9; 5];
    let mut row = |samples: &[u8], kind, numbers: &[u16], wanted| {
        reference::row_at(samples, kind, numbers, wanted, &mut out)
            .map(|length| out[..length].to_vec())
    };
    assert_eq!(
        row(&EXAMPLE[3..], Kind::Grey, &[1, 0, 2], 4),
        Ok(vec![10, 30, 50, 40])
    );
    assert_eq!(row(&EXAMPLE[3..], Kind::Grey, &[1, 0, 2], 1), Ok(vec![50]));
    // By other numbers, the last column's new pixel stands at its left.
    assert_eq!(
        row(&EXAMPLE[3..], Kind::Grey, &[0, 2, 1], 4),
        Ok(vec![10, 50, 45, 40])
    );
    assert_eq!(row(&EXAMPLE[3..], Kind::Grey, &[0, 2, 1], 1), Ok(vec![10]));
    assert_eq!(row(&EXAMPLE[3..], Kind::Grey, &[1, 2, 1], 9), Err(8));
    assert_eq!(row(&EXAMPLE[3..], Kind::Grey, &[0, 2], 2), Err(4));
    assert_eq!(row(&EXAMPLE[..3], Kind::Rgb, &[7], 9), Err(8));
    assert_eq!(row(&EXAMPLE[..1], Kind::Grey, &[7], 9), Ok(vec![10, 10]));
    assert_eq!(row(&[], Kind::Rgb, &[], usize::MAX), Ok(vec![]));
}

#[test]
fn one_pixel() {
    for (method, word) in [(EDGE, "edge"), (FLAT, "flat"), (FORWARD, "forward")] {
        let mut out = [OLD_ENERGY; 1];
        let answer = reference::energies(&[77], grey(1, 1), method, 0, &mut out);
        assert_eq!((answer, out), (Ok(()), [0]));
        let file = built(&[77], grey(1, 1), method, 0, 0).unwrap();
        let head = format!("(multi\n(size 1 1 grey)\n(range 0 0)\n(energy {word})\n");
        assert_eq!(file, format!("{head}(row 77)\n(map 0)\n)\n").into_bytes());
        assert!(checked(&file).is_ok());
        assert_eq!(shown(&file, 1).unwrap().1, [77]);
    }
}

#[test]
fn ranges_on_both_sides() {
    for (method, word) in [(EDGE, "edge"), (FLAT, "flat"), (FORWARD, "forward")] {
        assert!(built(&[1, 2], grey(2, 1), method, 1, 1).is_ok());
        assert_eq!(built(&[1, 2], grey(2, 1), method, 1, 2), Err(6));
        let file = |range: &str| {
            let head = format!("(multi\n(size 2 1 grey)\n({range})\n(energy {word})\n");
            format!("{head}(row 5 5)\n(map 1 0)\n)\n").into_bytes()
        };
        assert!(checked(&file("range 1 1")).is_ok());
        assert_eq!(checked(&file("range 1 2")), Err(6));
    }
}

#[test]
fn equal_samples_three_by_one() {
    for method in METHODS {
        let file = built(&[9, 9, 9], grey(3, 1), method, 2, 0).unwrap();
        let (_, _, map) = read_back(&file).unwrap();
        assert_eq!(map, [1, 2, 0]);
    }
}

#[test]
fn budget_zero_is_spent() {
    for method in METHODS {
        let (mut picture, mut marks) = ([1, 2], [2, 0]);
        let size = grey(2, 1);
        let mut work = work_space(size);
        let answer = reference::remove_object(&mut picture, &mut marks, size, method, 0, &mut work);
        assert_eq!(answer, Ok((Ending::Spent, 0)));
        assert_eq!((picture, marks), ([1, 2], [2, 0]));
        assert!(is_zero(&work));
    }
}

#[test]
fn largest_side_on_both_sides() {
    assert_eq!(reference::LARGEST_SIDE, 512);
    let picture: Vec<u8> = (0..513).map(|j| (j * 7 % 256) as u8).collect();
    for method in METHODS {
        let seam = |size| found(&picture[..512], size, method, Axis::Vertical).0;
        assert_eq!(seam(grey(512, 1)).len(), 1);
        assert!(built(&picture[..512], grey(512, 1), method, 511, 256).is_ok());
        assert_eq!(seam(grey(1, 512)), [0; 512]);
        assert_eq!(built(&picture, grey(513, 1), method, 0, 0), Err(3));
        assert_eq!(built(&picture, grey(1, 513), method, 0, 0), Err(3));
    }
}

#[test]
fn rgb_text_form() {
    let file = built(&[1, 2, 3, 4, 5, 6], rgb(2, 1), EDGE, 1, 1).unwrap();
    let expected = "(multi\n(size 2 1 rgb)\n(range 1 1)\n(energy edge)\n\
                    (row (1 2 3) (4 5 6))\n(map 1 0)\n)\n";
    assert_eq!(String::from_utf8(file).unwrap(), expected);
    // Either pixel has energy 9.
    assert_eq!(
        found(&[1, 2, 3, 4, 5, 6], rgb(2, 1), EDGE, Axis::Vertical),
        (vec![0], 9)
    );
    // The new pixel stands right of column 0.
    let (size, pixels) = shown(expected.as_bytes(), 3).unwrap();
    assert_eq!(size.kind, Kind::Rgb);
    assert_eq!(pixels, [1, 2, 3, 2, 3, 4, 4, 5, 6]);
}

/// The last column of an rgb picture goes first, and its new pixels stand at its
/// left. Horizontally 9 9 and 5 + 4 + 3 twice, vertically 8 + 7 + 6 in column 0
/// and 0 in column 1: energies 30 9 / 33 12.
#[test]
fn rgb_last_column() {
    let picture = [1, 2, 3, 4, 5, 6, 9, 9, 9, 4, 5, 6];
    let seam = found(&picture, rgb(2, 2), EDGE, Axis::Vertical);
    assert_eq!(seam, (vec![1, 1], 21));
    let file = built(&picture, rgb(2, 2), EDGE, 1, 1).unwrap();
    assert_eq!(read_back(&file).unwrap().2, [0, 1, 0, 1]);
    let (_, pixels) = shown(&file, 3).unwrap();
    assert_eq!(pixels[..9], [1, 2, 3, 2, 3, 4, 4, 5, 6]);
    assert_eq!(pixels[9..], [9, 9, 9, 6, 7, 7, 4, 5, 6]);
}

#[test]
fn rgb_energy_adds_the_channels() {
    let picture = [0, 10, 200, 255, 0, 100, 1, 10, 203, 0, 0, 0];
    let mut out = [0; 2];
    reference::energies(&picture, rgb(2, 2), EDGE, 0, &mut out).unwrap();
    // Right: 255 + 10 + 100. Lower: 1 + 0 + 3. Then left as much as right, and
    // lower 255 + 0 + 100.
    assert_eq!(out, [365 + 4, 365 + 355]);
    reference::energies(&picture, rgb(2, 2), EDGE, 1, &mut out).unwrap();
    // Right: 1 + 10 + 203. Upper as much as lower.
    assert_eq!(out, [214 + 4, 214 + 355]);
}

/// The last column is held against its left neighbour and the last row against
/// its upper one; a single column or row has no such difference.
#[test]
fn energies_at_the_edges() {
    let energies = |picture: &[u8], width, row| {
        let mut out = vec![OLD_ENERGY; width];
        let size = grey(width, picture.len() / width);
        reference::energies(picture, size, EDGE, row, &mut out).unwrap();
        out
    };
    // One row: 4, 7, and 7 to the left.
    assert_eq!(energies(&[5, 9, 2], 3, 0), [4, 7, 7]);
    // One column: 4, 7, and 7 upward.
    for (row, energy) in [(0, 4), (1, 7), (2, 7)] {
        assert_eq!(energies(&[5, 9, 2], 1, row), [energy]);
    }
    // Two of each: 3 + 8, 3 + 2 and 7 + 8, 7 + 2.
    assert_eq!(energies(&[1, 4, 9, 2], 2, 0), [11, 5]);
    assert_eq!(energies(&[1, 4, 9, 2], 2, 1), [15, 9]);
    // A step before the last column and one before the last row: the pixels on
    // both sides of it have it, and the corner has both.
    let picture = [0, 0, 100, 0, 0, 100, 10, 10, 200];
    assert_eq!(energies(&picture, 3, 0), [0, 100, 100]);
    assert_eq!(energies(&picture, 3, 1), [10, 100 + 10, 100 + 100]);
    assert_eq!(energies(&picture, 3, 2), [10, 190 + 10, 190 + 100]);
}

#[test]
fn rows_are_parts_of_the_lent_picture() {
    let picture: Vec<u8> = (0..18).collect();
    for i in 0..3 {
        let row = reference::row(&picture, rgb(2, 3), i);
        assert_eq!(row.as_ptr(), picture[6 * i..].as_ptr());
        assert_eq!(row.len(), 6);
    }
    for (size, row) in [
        (rgb(2, 3), 3),
        (rgb(2, 3), usize::MAX),
        (rgb(0, 3), 0),
        (rgb(2, 0), 0),
        (rgb(513, 1), 0),
        (rgb(usize::MAX, usize::MAX), 0),
        (rgb(2, 2), 0),
        (grey(2, 3), 0),
    ] {
        assert!(reference::row(&picture, size, row).is_empty());
    }
}

/// New pixels of the last two columns: p(m−2), new(m−2), new(m−1), p(m−1).
/// New pixels average original pixels, also where those are doubled.
#[test]
fn end_of_a_grown_row() {
    // Energies 0, 0, 11, 11: the seams take columns 0, then 1 and so on.
    let picture = [20, 20, 20, 31];
    let file = built(&picture, grey(4, 1), EDGE, 3, 2).unwrap();
    let (_, _, map) = read_back(&file).unwrap();
    assert_eq!(map, [1, 2, 3, 0]);
    assert_eq!(shown(&file, 6).unwrap().1, [20, 20, 20, 20, 20, 31]);
    // Energies 30, 20, 1, 1: of the last two columns, which in one row have the
    // same energy, the first goes. Then 30, 21, 21 and 51, 51.
    let picture = [0, 30, 50, 51];
    let file = built(&picture, grey(4, 1), EDGE, 3, 2).unwrap();
    let (_, _, map) = read_back(&file).unwrap();
    assert_eq!(map, [3, 2, 1, 0]);
    assert_eq!(shown(&file, 5).unwrap().1, [0, 30, 50, 50, 51]);
    assert_eq!(shown(&file, 6).unwrap().1, [0, 30, 40, 50, 50, 51]);
    // In two rows the vertical differences, 200 160 10 0, let the last column go
    // first: energies 290 200 51 41 / 250 350 41 31. Then 290 200 50 / 250 350
    // 200, and 290 250 / 250 210.
    let picture = [0, 90, 50, 91, 200, 250, 60, 91];
    let file = built(&picture, grey(4, 2), EDGE, 3, 2).unwrap();
    let (_, _, map) = read_back(&file).unwrap();
    assert_eq!(map, [0, 3, 2, 1, 0, 3, 2, 1]);
    // Halves: 50 and 91 give 70, 60 and 91 give 75, each twice at width 6.
    let five = [0, 90, 50, 70, 91, 200, 250, 60, 75, 91];
    assert_eq!(shown(&file, 5).unwrap().1, five);
    let six = [0, 90, 50, 70, 70, 91, 200, 250, 60, 75, 75, 91];
    assert_eq!(shown(&file, 6).unwrap().1, six);
}

/// Marks change no energy, and the cost with marks is the sum of energies.
#[test]
fn marks_change_no_energy() {
    let marks = [0, 2, 0, 0, 2, 0];
    let found = found_marked(&EXAMPLE, &marks, grey(3, 2), EDGE, Axis::Vertical);
    assert_eq!(found, Ok((vec![1, 1], 70 + 50)));
}

/// A horizontal seam of the example: energies 0 70 30 / 40 50 10, so rows
/// 0, 1, 1 at cost 0 + 50 + 10.
#[test]
fn horizontal_seam_of_the_example() {
    assert_eq!(
        found(&EXAMPLE, grey(3, 2), EDGE, Axis::Horizontal),
        (vec![0, 1, 1], 60)
    );
    let (left, _, _) = cut_once(&EXAMPLE, grey(3, 2), EDGE, Axis::Horizontal).unwrap();
    assert_eq!(left, [10, 10, 40, 0, 0, 0]);
}

/// Energies 0 70 10 10 / 40 40 10 10: rows 0, 1 and then any at cost 60; read
/// from the last column leftward 0 0 1 0 comes first.
#[test]
fn equal_horizontal_seams() {
    let picture = [10, 10, 40, 40, 10, 50, 50, 50];
    let (left, rows, cost) = cut_once(&picture, grey(4, 2), EDGE, Axis::Horizontal).unwrap();
    assert_eq!((rows, cost), (vec![0, 1, 0, 0], 60));
    assert_eq!(left, [10, 10, 50, 50, 0, 0, 0, 0]);
}

/// One row and one column less. Columns first: 40, then rows 1, 1 of 10 40 /
/// 50 40 at cost 50 + 10, together 100. Rows first: 60, then column 0 of
/// 10 10 40, whose energies are 0 30 30, together 60.
#[test]
fn retarget_of_the_example() {
    let mut out = [OLD_BYTE; 3];
    let mut work = retarget_work(grey(3, 2));
    let (size, rows, columns) = (grey(3, 2), Rows(1), Columns(1));
    let total = reference::retarget(&EXAMPLE, size, EDGE, rows, columns, &mut out, &mut work);
    assert_eq!(total, Ok(60));
    assert_eq!(out, [10, 40, OLD_BYTE]);
}
