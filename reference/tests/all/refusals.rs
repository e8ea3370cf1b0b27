//! The examples in the table of refusals, and the order of the numbers.

use crate::helpers::*;
use crate::retargets::retarget_work;
use reference::{Axis, Columns, Rows};

fn example_with(old: &str, new: &str) -> Vec<u8> {
    assert!(EXAMPLE_FILE.contains(old));
    EXAMPLE_FILE.replacen(old, new, 1).into_bytes()
}

#[test]
fn examples_of_the_table_in_files() {
    for (old, new, number) in [
        ("(size 3 2 grey)", "(size 03 2 grey)", 1),
        ("(size 3 2 grey)", "(size 0 2 grey)", 2),
        ("(size 3 2 grey)", "(size 513 1 grey)", 3),
        ("(row 10 10 40)", "(row 10 10)", 4),
        ("(range 2 1)", "(range 3 1)", 6),
        ("(map 1 0 2)", "(map 2 2 1)", 9),
        // Seam 1 at columns 0 and 2.
        ("(map 1 0 2)\n(map 1 0 2)", "(map 1 0 2)\n(map 2 0 1)", 10),
        ("(map 1 0 2)\n(map 1 0 2)", "(map 1 0 2)\n(map 1 2 0)", 11),
    ] {
        let file = example_with(old, new);
        assert_eq!(checked(&file).err(), Some(number));
        assert_eq!(read_back(&file).err(), Some(number));
        assert_eq!(shown(&file, 3).err(), Some(number));
    }
    assert_eq!(shown(EXAMPLE_FILE.as_bytes(), 5).err(), Some(7));
}

/// The maps of the table's examples in the file with energy `flat`, and each
/// file with the map of the other.
#[test]
fn examples_of_the_table_by_flat() {
    for (map, number) in [
        ("(map 2 2 1)\n(map 0 2 1)", 9),
        // Seam 1 at columns 0 and 2.
        ("(map 1 0 2)\n(map 2 0 1)", 10),
        ("(map 1 0 2)\n(map 1 2 0)", 11),
        ("(map 1 0 2)\n(map 1 0 2)", 11),
    ] {
        let file = FLAT_FILE.replace("(map 2 0 1)\n(map 0 2 1)", map);
        assert_eq!(checked(file.as_bytes()).err(), Some(number), "{map}");
    }
    let edge = FLAT_FILE.replace("flat", "edge");
    assert_eq!(checked(edge.as_bytes()).err(), Some(11));
    assert_eq!(shown(FLAT_FILE.as_bytes(), 5).err(), Some(7));
}

/// The same in the file with energy `forward`.
#[test]
fn examples_of_the_table_by_forward() {
    for (map, number) in [
        ("(map 2 2 1)\n(map 2 1 0)", 9),
        // Seam 1 at columns 0 and 2.
        ("(map 1 2 0)\n(map 2 0 1)", 10),
        ("(map 1 2 0)\n(map 1 2 0)", 11),
        ("(map 1 0 2)\n(map 1 0 2)", 11),
        ("(map 2 0 1)\n(map 0 2 1)", 11),
        // Seam 1 is the one found, seam 2 is not.
        ("(map 1 2 0)\n(map 0 1 2)", 11),
    ] {
        let file = FORWARD_FILE.replace("(map 1 2 0)\n(map 2 1 0)", map);
        assert_eq!(checked(file.as_bytes()).err(), Some(number), "{map}");
    }
    for word in ["edge", "flat"] {
        let other = FORWARD_FILE.replace("forward", word);
        assert_eq!(checked(other.as_bytes()).err(), Some(11));
    }
    assert_eq!(shown(FORWARD_FILE.as_bytes(), 5).err(), Some(7));
}

#[test]
fn examples_of_the_table_on_pictures() {
    // 5 bytes for 3 by 2 grey.
    let mut seam = [0; 4];
    let mut work = vec![OLD_BYTE; 200];
    let five = &EXAMPLE[..5];
    let find = reference::find(five, grey(3, 2), EDGE, Axis::Vertical, &mut seam, &mut work);
    assert_eq!(find, Err(4));
    assert_eq!(built(five, grey(3, 2), EDGE, 2, 1), Err(4));
    // Mark 3.
    let marks = [0, 0, 3, 0, 0, 0];
    let find = reference::find_marked(
        &EXAMPLE,
        &marks,
        grey(3, 2),
        EDGE,
        Axis::Vertical,
        &mut seam,
        &mut work,
    );
    assert_eq!(find, Err(5));
    // A row all marked 1, and a column.
    let row = [0, 0, 0, 1, 1, 1];
    assert_eq!(
        found_marked(&EXAMPLE, &row, grey(3, 2), EDGE, Axis::Vertical),
        Err(12)
    );
    assert!(found_marked(&EXAMPLE, &row, grey(3, 2), EDGE, Axis::Horizontal).is_ok());
    let column = [0, 1, 0, 0, 1, 0];
    assert_eq!(
        found_marked(&EXAMPLE, &column, grey(3, 2), EDGE, Axis::Horizontal),
        Err(12)
    );
    assert!(found_marked(&EXAMPLE, &column, grey(3, 2), EDGE, Axis::Vertical).is_ok());
    // A cut at width 1, and at height 1.
    assert_eq!(cut_once(&[1, 2], grey(1, 2), EDGE, Axis::Vertical), Err(13));
    assert!(cut_once(&[1, 2], grey(1, 2), EDGE, Axis::Horizontal).is_ok());
    assert_eq!(
        cut_once(&[1, 2], grey(2, 1), EDGE, Axis::Horizontal),
        Err(13)
    );
    // Finding at width 1 is served. Each pixel differs from the other by 1, and
    // by `flat` the last has energy 0. By `forward` a single column has no
    // neighbours that would meet.
    for (method, cost) in [(EDGE, 2), (FLAT, 1), (FORWARD, 0)] {
        let seam = found(&[1, 2], grey(1, 2), method, Axis::Vertical);
        assert_eq!(seam, (vec![0, 0], cost));
    }
    // 12 before 13.
    let answer = cut_marked_once(&[1, 2], &[0, 1], grey(1, 2), EDGE, Axis::Vertical);
    assert_eq!(answer, Err(12));
    let answer = cut_marked_once(&[1, 2], &[2, 2], grey(1, 2), EDGE, Axis::Vertical);
    assert_eq!(answer, Err(13));
}

/// Arguments that several numbers refuse get the smallest.
#[test]
fn the_smallest_number_of_several() {
    let bad_marks = [3; 6];
    let long_marks = [3; 7];
    let find_marked = |size, marks: &[u8], seam: usize, work: usize| {
        reference::find_marked(
            &EXAMPLE,
            marks,
            size,
            EDGE,
            Axis::Vertical,
            &mut vec![0; seam],
            &mut vec![0; work],
        )
    };
    assert_eq!(find_marked(grey(0, 513), &long_marks, 0, 0), Err(2));
    assert_eq!(find_marked(grey(513, 0), &long_marks, 0, 0), Err(2));
    assert_eq!(find_marked(grey(513, 2), &long_marks, 0, 0), Err(3));
    assert_eq!(find_marked(grey(2, 513), &long_marks, 0, 0), Err(3));
    assert_eq!(find_marked(grey(3, 2), &long_marks, 0, 0), Err(4));
    assert_eq!(find_marked(grey(3, 2), &bad_marks, 0, 0), Err(5));
    assert_eq!(find_marked(grey(3, 2), &[1; 6], 1, 192), Err(8));
    assert_eq!(find_marked(grey(3, 2), &[1; 6], 2, 191), Err(8));
    assert_eq!(find_marked(grey(3, 2), &[1; 6], 2, 192), Err(12));

    let build = |size, depth, out: usize, work: usize| {
        reference::build(
            &EXAMPLE,
            size,
            EDGE,
            depth,
            9,
            &mut vec![0; out],
            &mut vec![0; work],
        )
    };
    assert_eq!(build(grey(0, 2), 9, 0, 0), Err(2));
    assert_eq!(build(grey(600, 2), 9, 0, 0), Err(3));
    assert_eq!(build(grey(2, 2), 9, 0, 0), Err(4));
    assert_eq!(build(grey(3, 2), 9, 0, 0), Err(6));

    let retarget = |size, rows, out: usize, work: usize| {
        let columns = Columns(1);
        let (mut out, mut work) = (vec![0; out], vec![0; work]);
        reference::retarget(
            &EXAMPLE,
            size,
            EDGE,
            Rows(rows),
            columns,
            &mut out,
            &mut work,
        )
    };
    assert_eq!(retarget(grey(0, 2), 9, 0, 0), Err(2));
    assert_eq!(retarget(grey(600, 2), 9, 0, 0), Err(3));
    assert_eq!(retarget(grey(2, 2), 9, 0, 0), Err(4));
    assert_eq!(retarget(grey(3, 2), 2, 0, 0), Err(7));
    assert_eq!(retarget(grey(3, 2), 1, 1, 9_999), Err(8));
    let needed = 32 * 6 + 66 * 6;
    assert_eq!(retarget(grey(3, 2), 1, 2, needed - 1), Err(8));
    assert!(retarget(grey(3, 2), 1, 2, needed).is_ok());
}

/// 8 stands between 7 and 9: an unoffered width first, then the spaces, then
/// the map.
#[test]
fn eight_between_seven_and_nine() {
    for (old, new, number) in [
        ("(map 1 0 2)", "(map 2 2 1)", 9),
        ("(map 1 0 2)", "(map 2 0 1)", 10),
        ("(map 1 0 2)\n(map 1 0 2)", "(map 1 0 2)\n(map 1 2 0)", 11),
    ] {
        let file = example_with(old, new);
        let show = |width, out: usize, work: usize| {
            reference::show(&file, width, &mut vec![0; out], &mut vec![0; work]).err()
        };
        assert_eq!(show(5, 0, 0), Some(7));
        assert_eq!(show(4, 7, 192), Some(8));
        assert_eq!(show(4, 8, 191), Some(8));
        assert_eq!(show(4, 8, 192), Some(number));
        assert_eq!(reference::check(&file, &mut [0; 191]), Err(8));
        assert_eq!(reference::check(&file, &mut [0; 192]), Err(number));
        let read = |picture: usize, map: usize, work: usize| {
            let (mut picture, mut map) = (vec![0; picture], vec![0; map]);
            reference::read(&file, &mut picture, &mut map, &mut vec![0; work]).err()
        };
        assert_eq!(read(5, 6, 192), Some(8));
        assert_eq!(read(6, 5, 192), Some(8));
        assert_eq!(read(6, 6, 191), Some(8));
        assert_eq!(read(6, 6, 192), Some(number));
    }
}

/// The work space is 32 bytes a pixel of the file's picture, whatever width
/// is shown, and the output space that of the width shown.
#[test]
fn exact_spaces_serve() {
    let file = EXAMPLE_FILE.as_bytes();
    for width in 1..=4 {
        let mut out = vec![0; width * 2];
        assert!(reference::show(file, width, &mut out, &mut [0; 192]).is_ok());
        assert_eq!(
            reference::show(file, width, &mut out, &mut [0; 191]),
            Err(8)
        );
        let mut short = vec![0; width * 2 - 1];
        assert_eq!(
            reference::show(file, width, &mut short, &mut [0; 192]),
            Err(8)
        );
    }
    let length = EXAMPLE_FILE.len();
    let build = |out: usize, work: usize| {
        let (mut out, mut work) = (vec![0; out], vec![0; work]);
        reference::build(&EXAMPLE, grey(3, 2), EDGE, 2, 1, &mut out, &mut work)
    };
    assert_eq!(build(length, 192), Ok(length));
    assert_eq!(build(length - 1, 192), Err(8));
    assert_eq!(build(length, 191), Err(8));
}

/// 32 bytes a pixel, for an rgb picture too, and one entry a row or one a column.
#[test]
fn exact_spaces_serve_a_seam() {
    let mut seam = [0; 1];
    let find = |work: usize, seam: &mut [u16]| {
        reference::find(
            &[1; 6],
            rgb(2, 1),
            EDGE,
            Axis::Vertical,
            seam,
            &mut vec![0; work],
        )
    };
    assert_eq!(find(63, &mut seam), Err(8));
    assert_eq!(find(64, &mut seam), Ok(0));
    let horizontal = |seam: usize| {
        let (mut seam, mut work) = (vec![0; seam], [0; 192]);
        reference::find(
            &EXAMPLE,
            grey(3, 2),
            EDGE,
            Axis::Horizontal,
            &mut seam,
            &mut work,
        )
    };
    assert_eq!(horizontal(2), Err(8));
    // Rows 0, 1, 1: 0 + 50 + 10.
    assert_eq!(horizontal(3), Ok(60));
}

/// Sizes and numbers up to the largest: no overflow on the way to a refusal.
#[test]
fn huge_numbers() {
    let huge = usize::MAX;
    let mut seam = [OLD_NUMBER; 4];
    let mut work = [OLD_BYTE; 32];
    let mut out = [OLD_BYTE; 8];
    for kind_size in [grey, rgb] {
        for (size, number) in [
            (kind_size(huge, huge), 3),
            (kind_size(huge, 1), 3),
            (kind_size(1, huge), 3),
            (kind_size(huge, 0), 2),
            (kind_size(0, huge), 2),
            (kind_size(huge / 2 + 1, 2), 3),
            (kind_size(512, 512), 4),
        ] {
            for axis in AXES {
                let (picture, seam, work) = (&mut [1], &mut seam, &mut work);
                let find = reference::find(picture, size, EDGE, axis, seam, work);
                assert_eq!(find, Err(number));
                let find = reference::find_marked(picture, &[0], size, EDGE, axis, seam, work);
                assert_eq!(find, Err(number));
                let cut = reference::cut(picture, size, EDGE, axis, seam, work);
                assert_eq!(cut, Err(number));
                let cut = reference::cut_marked(picture, &mut [9], size, EDGE, axis, seam, work);
                assert_eq!(cut, Err(number));
            }
            let (picture, work) = (&mut [1], &mut work);
            let remove = reference::remove_object(picture, &mut [9], size, EDGE, 65_535, work);
            assert_eq!(remove, Err(number));
            let (rows, columns) = (Rows(huge), Columns(huge));
            let retarget = reference::retarget(picture, size, EDGE, rows, columns, &mut out, work);
            assert_eq!(retarget, Err(number));
            let build = reference::build(picture, size, EDGE, huge, huge, &mut out, work);
            assert_eq!(build, Err(number));
            let energies = reference::energies(picture, size, EDGE, huge, &mut []);
            assert_eq!(energies, Err(number));
            let [left, up, right] = [&mut [], &mut [], &mut []];
            let costs = reference::step_costs(picture, size, FORWARD, huge, left, up, right);
            assert_eq!(costs, Err(number));
        }
    }
    let (rows, columns, size) = (Rows(huge), Columns(huge), grey(1, 1));
    let retarget = reference::retarget(&[1], size, EDGE, rows, columns, &mut out, &mut work);
    assert_eq!(retarget, Err(7));
    let build = reference::build(&[1], size, EDGE, huge, huge, &mut out, &mut work);
    assert_eq!(build, Err(6));
    assert_eq!(shown(EXAMPLE_FILE.as_bytes(), huge), Err(7));
    let energies = reference::energies(&[1], size, EDGE, huge, &mut []);
    assert_eq!(energies, Err(4));
}

#[test]
fn energies_refuse() {
    for method in METHODS {
        for (size, row, length, number) in [
            (grey(0, 2), 0, 3, 2),
            (grey(3, 600), 0, 3, 3),
            (grey(3, 3), 0, 3, 4),
            (grey(3, 2), 2, 3, 4),
            (grey(3, 2), 2, 2, 4),
            (grey(3, 2), 1, 2, 8),
        ] {
            let mut out = vec![OLD_ENERGY; length];
            let answer = reference::energies(&EXAMPLE, size, method, row, &mut out);
            assert_eq!(answer, Err(number));
            assert!(out.iter().all(|energy| *energy == OLD_ENERGY));
        }
    }
}

/// Refused as energies are, and where any of the three spaces is too short.
#[test]
fn step_costs_refuse() {
    for method in METHODS {
        for (size, row, lengths, number) in [
            (grey(0, 2), 0, [3, 3, 3], 2),
            (grey(3, 600), 0, [3, 3, 3], 3),
            (grey(3, 3), 0, [3, 3, 3], 4),
            (grey(3, 2), 2, [3, 3, 3], 4),
            (grey(3, 2), 2, [2, 2, 2], 4),
            (grey(3, 2), 1, [2, 3, 3], 8),
            (grey(3, 2), 1, [3, 2, 3], 8),
            (grey(3, 2), 1, [3, 3, 2], 8),
            (grey(3, 2), 0, [3, 3, 0], 8),
        ] {
            let mut spaces = lengths.map(|length| vec![OLD_ENERGY; length]);
            let [left, up, right] = &mut spaces;
            let answer = reference::step_costs(&EXAMPLE, size, method, row, left, up, right);
            assert_eq!(answer, Err(number));
            assert!(spaces.concat().iter().all(|cost| *cost == OLD_ENERGY));
        }
    }
}

/// A retarget's work space depends on the kind.
#[test]
fn retarget_work_by_kind() {
    for (size, picture) in [(grey(2, 2), vec![1; 4]), (rgb(2, 2), vec![1; 12])] {
        let needed = 32 * 4 + 66 * picture.len();
        let mut out = [0; 12];
        let mut work = vec![0; needed];
        let mut retarget = |work: &mut [u8]| {
            let (rows, columns) = (Rows(1), Columns(1));
            reference::retarget(&picture, size, EDGE, rows, columns, &mut out, work)
        };
        assert_eq!(retarget(&mut work[..needed - 1]), Err(8));
        assert_eq!(retarget(&mut work), Ok(0));
        assert!(retarget_work(size).len() > needed);
    }
}
