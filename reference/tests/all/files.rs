//! Building, checking, reading and showing files against the definitions.

use crate::definitions::*;
use crate::helpers::*;
use crate::random::Random;
use crate::verdict::verdict;
use reference::{Axis, FileInfo, Method, Size};

/// Every allowed depth and growth at a width.
fn allowed_ranges(width: usize) -> Vec<(usize, usize)> {
    let mut ranges = Vec::new();
    for depth in 0..=width + 1 {
        for growth in 0..=width + 1 {
            if depth < width && growth <= depth && growth <= width / 2 {
                ranges.push((depth, growth));
            }
        }
    }
    ranges
}

/// The picture after `count` vertical cuts.
fn carved(picture: &[u8], size: Size, method: Method, count: usize) -> Vec<u8> {
    let mut left = picture.to_vec();
    let mut size = size;
    for _ in 0..count {
        let (lent, _, _) = cut_once(&left, size, method, Axis::Vertical).unwrap();
        size.width -= 1;
        left = lent[..byte_count(size)].to_vec();
    }
    left
}

#[test]
fn allowed_and_refused_ranges() {
    for width in 1..=7 {
        let picture = vec![3; width * 2];
        let allowed = allowed_ranges(width);
        for depth in 0..=width + 1 {
            for growth in 0..=width + 1 {
                let answer = built(&picture, grey(width, 2), EDGE, depth, growth);
                assert_eq!(answer.is_ok(), allowed.contains(&(depth, growth)));
                if answer.is_err() {
                    assert_eq!(answer, Err(6));
                }
            }
        }
        for (depth, growth) in [(usize::MAX, 0), (0, usize::MAX), (usize::MAX, usize::MAX)] {
            assert_eq!(built(&picture, grey(width, 2), FLAT, depth, growth), Err(6));
        }
    }
}

/// A file built, checked, read and shown at every width.
fn judge_file(picture: &[u8], size: Size, method: Method, depth: usize, growth: usize) {
    let map = map(picture, size, method, depth);
    let file = built(picture, size, method, depth, growth).unwrap();
    let expected = text(picture, &map, size, method, depth, growth);
    assert_eq!(String::from_utf8(file.clone()).unwrap(), expected);
    assert_eq!(verdict(&file), Ok(()));
    let info = FileInfo {
        size,
        method,
        depth,
        growth,
    };
    assert_eq!(checked(&file), Ok(info));
    assert_eq!(read_back(&file), Ok((info, picture.to_vec(), map.clone())));
    for width in 0..=size.width + growth + 2 {
        let answer = shown(&file, width);
        let shown_size = Size { width, ..size };
        if width + depth < size.width || width > size.width + growth {
            assert_eq!(answer, Err(7));
        } else if width <= size.width {
            let left = carved(picture, size, method, size.width - width);
            assert_eq!(answer, Ok((shown_size, left)));
        } else {
            let grown = wider(picture, &map, size, width - size.width);
            assert_eq!(answer, Ok((shown_size, grown)));
        }
    }
}

#[test]
fn built_files_against_the_definitions() {
    let mut random = Random::new(41);
    for _ in 0..200 {
        let (picture, size) = random_picture(&mut random, 5, 4);
        for (depth, growth) in allowed_ranges(size.width) {
            for method in METHODS {
                judge_file(&picture, size, method, depth, growth);
            }
        }
    }
}

/// Larger files: every offered width against cut after cut.
#[test]
fn every_width_of_a_larger_file() {
    let mut random = Random::new(42);
    let values: Vec<u8> = (0..=255).collect();
    for (kind, method) in [(KINDS[0], EDGE), (KINDS[1], FLAT), (KINDS[1], FORWARD)] {
        let size = size(30, 20, kind);
        let picture = random.bytes(byte_count(size), &values);
        let file = built(&picture, size, method, 29, 15).unwrap();
        let (_, read_picture, map) = read_back(&file).unwrap();
        assert_eq!(read_picture, picture);
        let mut left = picture.clone();
        for width in (1..=30).rev() {
            let shown_size = Size { width, ..size };
            assert_eq!(shown(&file, width), Ok((shown_size, left.clone())));
            if width > 1 {
                left = carved(&left, shown_size, method, 1);
            }
        }
        for width in 31..=45 {
            let grown = wider(&picture, &map, size, width - 30);
            assert_eq!(shown(&file, width), Ok((Size { width, ..size }, grown)));
        }
        assert_eq!(shown(&file, 46), Err(7));
        assert_eq!(shown(&file, 0), Err(7));
    }
}

/// Every order of the numbers in a row.
fn orders(numbers: &[u16]) -> Vec<Vec<u16>> {
    if numbers.is_empty() {
        return vec![Vec::new()];
    }
    let mut all = Vec::new();
    for (place, number) in numbers.iter().enumerate() {
        let mut others = numbers.to_vec();
        others.remove(place);
        for mut order in orders(&others) {
            order.insert(0, *number);
            all.push(order);
        }
    }
    all.sort();
    all.dedup();
    all
}

/// Every map whose rows are orders of 1 to k and zeros: checking gives what
/// the definitions give, and accepts exactly one, the one built. Counts the
/// refusals.
fn judge_all_maps(picture: &[u8], size: Size, method: Method, depth: usize, seen: &mut [i32; 12]) {
    let mut numbers: Vec<u16> = (1..=depth as u16).collect();
    numbers.resize(size.width, 0);
    let rows = orders(&numbers);
    let mut accepted = Vec::new();
    for which in 0..rows.len().pow(size.height as u32) {
        let mut map = Vec::new();
        let mut rest = which;
        for _ in 0..size.height {
            map.extend_from_slice(&rows[rest % rows.len()]);
            rest /= rows.len();
        }
        let file = text(picture, &map, size, method, depth, 0);
        let expected = verdict(file.as_bytes());
        let answer = checked(file.as_bytes());
        assert_eq!(answer.map(|_| ()), expected);
        match answer {
            Ok(_) => accepted.push(file.into_bytes()),
            Err(number) => seen[usize::from(number)] += 1,
        }
    }
    let file = built(picture, size, method, depth, 0).unwrap();
    assert_eq!(accepted, [file]);
}

#[test]
fn all_maps_of_small_pictures() {
    for method in METHODS {
        let mut random = Random::new(43);
        let mut seen = [0; 12];
        for (width, height) in [(1, 1), (2, 2), (3, 1), (3, 2), (3, 3), (4, 2), (2, 4)] {
            for kind in KINDS.repeat(4) {
                let size = size(width, height, kind);
                let picture = random.bytes(byte_count(size), &[0, 1, 2, 9]);
                for depth in 0..width {
                    judge_all_maps(&picture, size, method, depth, &mut seen);
                }
            }
        }
        assert!(seen[10] > 100 && seen[11] > 100);
    }
}

/// Maps of any numbers from 0 to k+1: 9 when a row lacks, repeats or exceeds.
#[test]
fn maps_of_any_numbers() {
    let picture = [4, 4, 6, 7];
    for (width, height) in [(4, 1), (2, 2)] {
        let size = grey(width, height);
        for depth in 0..width {
            let base = depth as u16 + 2;
            for which in 0..base.pow(4) {
                let map: Vec<u16> = (0..4).map(|place| which / base.pow(place) % base).collect();
                for method in METHODS {
                    let file = text(&picture, &map, size, method, depth, 0);
                    let expected = verdict(file.as_bytes());
                    assert_eq!(checked(file.as_bytes()).map(|_| ()), expected);
                }
            }
        }
    }
}

/// A file is judged by the energy that it names: with the map of another one it is
/// refused by 11, but where both have the same map.
#[test]
fn maps_of_another_energy() {
    let mut random = Random::new(45);
    for (method, other) in PAIRS {
        let mut counts = [0; 2];
        for _ in 0..400 {
            let (picture, size) = random_picture(&mut random, 5, 4);
            let depth = random.below(size.width);
            let map_of = |method| map(&picture, size, method, depth);
            let file = text(&picture, &map_of(other), size, method, depth, 0);
            let same = map_of(method) == map_of(other);
            let expected = if same { None } else { Some(11) };
            assert_eq!(checked(file.as_bytes()).err(), expected);
            assert_eq!(read_back(file.as_bytes()).err(), expected);
            assert_eq!(shown(file.as_bytes(), size.width).err(), expected);
            counts[usize::from(same)] += 1;
        }
        assert!(counts.iter().all(|count| *count > 50), "{counts:?}");
    }
}

/// Two accepted files are the same bytes exactly when picture, widths and energy
/// are the same.
#[test]
fn same_bytes_for_same_picture_widths_and_energy() {
    let mut random = Random::new(46);
    let mut files = Vec::new();
    for _ in 0..24 {
        let picture = random.bytes(6, &[0, 1]);
        for size in [grey(3, 2), grey(2, 3), rgb(2, 1), rgb(1, 2)] {
            for (depth, growth) in allowed_ranges(size.width) {
                for method in METHODS {
                    let file = built(&picture, size, method, depth, growth).unwrap();
                    files.push(((picture.clone(), size, depth, growth, method), file));
                }
            }
        }
    }
    let mut equal = 0;
    for (place, (one, file)) in files.iter().enumerate() {
        for (other, other_file) in &files[..place] {
            assert_eq!(file == other_file, one == other);
            equal += usize::from(one == other);
        }
    }
    assert!(equal > 0);
}

/// 10 of a later seam beats 11 of an earlier one.
#[test]
fn ten_beats_eleven_of_an_earlier_seam() {
    // Seam 1 is at columns 0, 0, connected but not the one found, which is
    // 1, 1: the energies of both rows are 50 40 90 90. Seam 2 is broken: in the
    // picture left its columns are 0 and 2.
    let file = "(multi\n(size 4 2 grey)\n(range 2 0)\n(energy edge)\n\
                (row 0 50 90 0)\n(row 0 50 90 0)\n(map 1 2 0 0)\n(map 1 0 0 2)\n)\n";
    assert_eq!(verdict(file.as_bytes()), Err(10));
    assert_eq!(checked(file.as_bytes()).map(|_| ()), Err(10));
    // With seam 2 connected only 11 is left.
    let file = file.replace("(map 1 0 0 2)", "(map 1 0 2 0)");
    assert_eq!(checked(file.as_bytes()).map(|_| ()), Err(11));
}

/// A seam may be broken in the original and connected in the picture left
/// before it, and the other way round.
#[test]
fn connected_in_the_picture_left() {
    let mut random = Random::new(44);
    let mut apart = 0;
    for _ in 0..300 {
        let picture = random.bytes(15, &[0, 1, 2, 3]);
        let file = built(&picture, grey(5, 3), EDGE, 4, 0).unwrap();
        assert!(checked(&file).is_ok());
        let (_, _, map) = read_back(&file).unwrap();
        for t in 1..=4 {
            let column = |i: usize| map[5 * i..5 * i + 5].iter().position(|n| *n == t).unwrap();
            apart += usize::from(column(0).abs_diff(column(1)) > 1);
        }
    }
    assert!(apart > 50);
}

/// Checking doesn't look at the growth beyond 6: the same map serves.
#[test]
fn growth_changes_only_the_range_line() {
    let picture = [5, 9, 5, 7, 1, 1, 2, 8];
    for method in METHODS {
        let file = |growth| built(&picture, grey(4, 2), method, 3, growth).unwrap();
        let without = String::from_utf8(file(0)).unwrap();
        let with = String::from_utf8(file(2)).unwrap();
        assert_eq!(without.replace("(range 3 0)", "(range 3 2)"), with);
    }
}
