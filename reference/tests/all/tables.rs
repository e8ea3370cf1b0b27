//! What files are refused by, place by place: every number, every line, every
//! range, and every set of refusals at once.

use crate::helpers::*;
use crate::random::Random;
use crate::verdict::verdict;
use reference::Refusal;

/// Accepted files of both kinds, one by each method.
fn files() -> [String; 3] {
    let picture = [
        1, 2, 3, 40, 50, 60, 7, 80, 9, 0, 0, 0, 255, 254, 253, 100, 10, 1,
    ];
    let rgb = built(&picture, rgb(3, 2), FLAT, 2, 1).unwrap();
    let rgb = String::from_utf8(rgb).unwrap();
    [EXAMPLE_FILE.to_string(), rgb, FORWARD_FILE.to_string()]
}

fn refusal(file: &str) -> Option<Refusal> {
    let answer = checked(file.as_bytes());
    assert_eq!(answer.map(|_| ()), verdict(file.as_bytes()), "{file}");
    assert_eq!(read_back(file.as_bytes()).map(|(info, _, _)| info), answer);
    answer.err()
}

/// Where each number of a text begins and ends.
fn numbers(file: &str) -> Vec<(usize, usize)> {
    let bytes = file.as_bytes();
    let digit = |at: usize| bytes.get(at).is_some_and(u8::is_ascii_digit);
    let starts = (1..bytes.len()).filter(|at| digit(*at) && !digit(at - 1));
    let end = |start: usize| (start..).find(|at| !digit(*at)).unwrap();
    starts.map(|start| (start, end(start))).collect()
}

/// Numbers of broken form are 1 wherever they stand, the largest number is
/// not but as a sample, and 256 is 1 as a sample alone.
#[test]
fn every_number_of_a_file() {
    for file in files() {
        assert!(numbers(&file).len() >= 4 + 6 + 6);
        for (start, end) in numbers(&file) {
            let with = |number: &str| [&file[..start], number, &file[end..]].concat();
            let given = &file[start..end];
            let zero_ahead = format!("0{given}");
            let (ones, zeros) = ("1".repeat(100), "0".repeat(100));
            let far = u64::MAX.to_string();
            let wrapped = (given.parse::<u64>().unwrap() + 65_536).to_string();
            for number in [
                "00",
                "03",
                "65536",
                "65540",
                "99999",
                "100000",
                "-1",
                "+1",
                "1x",
                "x1",
                "",
                "1.0",
                "0x1",
                &zero_ahead,
                &ones,
                &zeros,
                &far,
                &wrapped,
            ] {
                assert_eq!(refusal(&with(number)), Some(1), "{given} to {number}");
            }
            let line = file[..start].rfind('\n').unwrap() + 1;
            let is_sample = file[line..].starts_with("(row");
            for number in ["256", "65535"] {
                let broken = refusal(&with(number)) == Some(1);
                assert_eq!(broken, is_sample, "{given} to {number}");
            }
            assert_ne!(refusal(&with("255")), Some(1));
        }
    }
}

/// A text with one of its lines exchanged.
fn with_line(file: &str, place: usize, new: &str) -> String {
    let mut lines: Vec<&str> = file.split_inclusive('\n').collect();
    lines[place] = new;
    lines.concat()
}

/// A row or map line that is missing or doubled is 4, any other line 1.
#[test]
fn every_line_of_a_file() {
    for file in files() {
        for (place, line) in file.split_inclusive('\n').enumerate() {
            let counted = line.starts_with("(row") || line.starts_with("(map");
            let number = if counted { Some(4) } else { Some(1) };
            assert_eq!(refusal(&with_line(&file, place, "")), number);
            let doubled = [line, line].concat();
            assert_eq!(refusal(&with_line(&file, place, &doubled)), number);
            for spoilt in ["\n", ")\n", "(\n", "()\n", "(rows 1)\n", "(mops 1)\n"] {
                if spoilt != line {
                    assert_eq!(refusal(&with_line(&file, place, spoilt)), Some(1));
                }
            }
        }
    }
}

/// The first item of a row or map line, with the blank ahead of it.
fn first_item(line: &str) -> &str {
    let end = if line.starts_with("(row (") {
        line.find(')').unwrap() + 1
    } else {
        5 + line[5..].find(' ').unwrap()
    };
    &line[4..end]
}

/// Row and map lines with no items, too few or too many are 4; with blanks or
/// empty brackets alone they are 1.
#[test]
fn every_row_and_map_line_of_a_file() {
    for file in files() {
        for (place, line) in file.split_inclusive('\n').enumerate().skip(4).take(4) {
            let (word, item) = (&line[..4], first_item(line));
            for (items, number) in [
                (")\n", 4),
                (" )\n", 1),
                ("  )\n", 1),
                (" ())\n", 1),
                (" ( ))\n", 1),
                (" (()))\n", 1),
                (&line[4 + item.len()..], 4),
                (&[item, &line[4..]].concat(), 4),
            ] {
                let changed = [word, items].concat();
                let answer = refusal(&with_line(&file, place, &changed));
                assert_eq!(answer, Some(number), "{changed}");
            }
        }
    }
}

/// One row line too few and one map line too many, and the other way round.
#[test]
fn lines_of_the_other_sort() {
    let [grey, rgb, _] = files();
    for (file, row) in [(&grey, "(row 1 2 3)\n"), (&rgb, "(row (1 2 3) (1 2 3))\n")] {
        assert_eq!(refusal(&with_line(file, 5, "(map 1 0 2)\n")), Some(4));
        assert_eq!(refusal(&with_line(file, 6, row)), Some(4));
        // Then map lines stand ahead of a row line.
        assert_eq!(refusal(&with_line(file, 4, "(map 1 0 2)\n")), Some(1));
        assert_eq!(refusal(&with_line(file, 7, row)), Some(1));
    }
    // A row of the other kind.
    assert_eq!(refusal(&with_line(&rgb, 4, "(row 1 2 3)\n")), Some(1));
    let row = "(row (1 2 3) (1 2 3) (1 2 3))\n";
    assert_eq!(refusal(&with_line(&grey, 4, row)), Some(1));
}

/// Every depth and growth in a file: 6 where the range isn't allowed; where
/// it is, another depth than the map's is 9 and another growth is accepted.
#[test]
fn every_range_of_a_file() {
    for width in 1..=6 {
        for recorded in 0..width {
            let picture = vec![7; width * 2];
            let file = built(&picture, grey(width, 2), EDGE, recorded, 0).unwrap();
            let file = String::from_utf8(file).unwrap();
            for depth in (0..=width + 1).chain([65_535]) {
                for growth in (0..=width + 1).chain([65_535]) {
                    let range = format!("(range {depth} {growth})\n");
                    let allowed = depth < width && growth <= depth && growth <= width / 2;
                    let expected = match (allowed, depth == recorded) {
                        (false, _) => Some(6),
                        (true, false) => Some(9),
                        (true, true) => None,
                    };
                    assert_eq!(refusal(&with_line(&file, 2, &range)), expected);
                }
            }
        }
    }
}

/// The worked file with the faults of these numbers, all at once. The largest
/// comes last.
fn with_faults(numbers: &[Refusal]) -> String {
    let has = |number| numbers.contains(&number);
    let width = if has(2) { 0 } else { 3 };
    let height = if has(3) { 513 } else { 2 };
    let depth = if has(6) { 3 } else { 2 };
    let row = if has(4) {
        "(row 10 10)"
    } else {
        "(row 10 10 40)"
    };
    let map = match numbers.last() {
        Some(9) => "(map 2 2 1)\n(map 1 0 2)",
        Some(10) => "(map 1 0 2)\n(map 2 0 1)",
        Some(11) => "(map 1 0 2)\n(map 1 2 0)",
        _ => "(map 1 0 2)\n(map 1 0 2)",
    };
    let end = if has(1) { ")" } else { ")\n" };
    format!(
        "(multi\n(size {width} {height} grey)\n(range {depth} 1)\n(energy edge)\n\
         {row}\n(row 10 50 40)\n{map}\n{end}"
    )
}

/// Every set of faults, with one of the map at most.
fn sets_of_faults() -> Vec<Vec<Refusal>> {
    let mut sets = vec![vec![], vec![9], vec![10], vec![11]];
    for number in [8, 7, 6, 4, 3, 2, 1] {
        let with = |set: &Vec<Refusal>| [&[number], set.as_slice()].concat();
        let more: Vec<_> = sets.iter().map(with).collect();
        sets.extend(more);
    }
    sets
}

/// Of several the smallest is given, and the spaces are left as it says.
#[test]
fn every_set_of_refusals() {
    for set in sets_of_faults() {
        let file = with_faults(&set);
        let file = file.as_bytes();
        let has = |number| set.contains(&number);
        let smallest = |without: Refusal| set.iter().copied().find(|number| *number != without);

        // Only showing has a wanted width.
        let mut work = vec![OLD_BYTE; if has(8) { 191 } else { 200 }];
        let answer = reference::check(file, &mut work);
        assert_eq!(answer.err(), smallest(7), "{set:?}");
        judge_work_after(&work, &answer);

        for (short_picture, short_map) in [(true, false), (false, true)] {
            let length = |short| if has(8) && short { 5 } else { 6 };
            let mut picture = vec![OLD_BYTE; length(short_picture)];
            let mut map = vec![OLD_NUMBER; length(short_map)];
            let mut work = [OLD_BYTE; 192];
            let answer = reference::read(file, &mut picture, &mut map, &mut work);
            assert_eq!(answer.err(), smallest(7), "{set:?}");
            judge_work_after(&work, &answer);
            let untouched = picture.iter().all(|byte| *byte == OLD_BYTE)
                && map.iter().all(|number| *number == OLD_NUMBER);
            assert_eq!(untouched, answer.is_err());
        }

        let wanted = if has(7) { 5 } else { 4 };
        let mut out = vec![OLD_BYTE; if has(8) { 7 } else { 8 }];
        let mut work = [OLD_BYTE; 192];
        let answer = reference::show(file, wanted, &mut out, &mut work);
        assert_eq!(answer.err(), smallest(0), "{set:?}");
        judge_work_after(&work, &answer);
        let untouched = out.iter().all(|byte| *byte == OLD_BYTE);
        assert_eq!(untouched, answer.is_err());
    }
}

/// Building needs just the length of the text, whatever the seams are.
#[test]
fn length_of_the_text() {
    let mut random = Random::new(91);
    for _ in 0..300 {
        let (picture, size) = random_picture(&mut random, 12, 4);
        let depth = random.below(size.width);
        let growth = random.below(depth.min(size.width / 2) + 1);
        let method = random.pick(&METHODS);
        let length = built(&picture, size, method, depth, growth).unwrap().len();
        let mut work = work_space(size);
        let mut out = vec![OLD_BYTE; length];
        let build = |out: &mut [u8], work: &mut [u8]| {
            reference::build(&picture, size, method, depth, growth, out, work)
        };
        let answer = build(&mut out[..length - 1], &mut work);
        assert_eq!(answer, Err(8));
        judge_work_after(&work, &answer);
        assert_eq!(build(&mut out, &mut work), Ok(length));
        assert!(is_zero(&work));
    }
}

/// What a file is answered depends on no byte of the work space and, from 32
/// bytes a pixel on, not on its length.
#[test]
fn work_space_changes_no_answer() {
    for set in [vec![], vec![9], vec![10], vec![11]] {
        let file = with_faults(&set);
        for length in [192, 193, 255, 10_000] {
            for byte in [0, 1, 255] {
                let mut work = vec![byte; length];
                let answer = reference::check(file.as_bytes(), &mut work);
                assert_eq!(answer.err(), set.first().copied());
                assert!(is_zero(&work));
            }
        }
    }
}

/// A wanted width is refused by 7 alone, never by 2 or 3.
#[test]
fn wanted_widths_of_the_widest_file() {
    let picture: Vec<u8> = (0..512).map(|j| (j * 37 % 251) as u8).collect();
    let file = built(&picture, grey(512, 1), EDGE, 300, 256).unwrap();
    for wanted in (0..=800).chain([65_535, 65_536 + 512, usize::MAX]) {
        let answer = shown(&file, wanted).map(|(size, _)| size.width);
        if (212..=768).contains(&wanted) {
            assert_eq!(answer, Ok(wanted));
        } else {
            assert_eq!(answer, Err(7));
        }
    }
}
