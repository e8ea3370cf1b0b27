//! The form of a file: named examples, and many changed texts against the
//! reader in `verdict.rs`.

use crate::helpers::*;
use crate::random::Random;
use crate::verdict::verdict;

/// An accepted `rgb` file of 3 by 2 pixels, with energy `flat`.
fn rgb_file() -> String {
    let picture = [
        1, 2, 3, 40, 50, 60, 7, 80, 9, 0, 0, 0, 255, 254, 253, 100, 10, 1,
    ];
    String::from_utf8(built(&picture, rgb(3, 2), FLAT, 2, 1).unwrap()).unwrap()
}

fn refusal(file: &str) -> Option<u8> {
    let answer = checked(file.as_bytes());
    assert_eq!(answer.map(|_| ()), verdict(file.as_bytes()), "{file}");
    answer.err()
}

/// The example file with one piece of text exchanged.
fn changed(old: &str, new: &str) -> String {
    assert!(EXAMPLE_FILE.contains(old));
    EXAMPLE_FILE.replacen(old, new, 1)
}

fn changed_rgb(old: &str, new: &str) -> String {
    let file = rgb_file();
    assert!(file.contains(old));
    file.replacen(old, new, 1)
}

#[test]
fn counts_are_four_and_not_one() {
    for (old, new) in [
        ("(row 10 10 40)", "(row)"),
        ("(row 10 10 40)", "(row 10 10)"),
        ("(row 10 10 40)", "(row 10 10 40 40)"),
        ("(map 1 0 2)", "(map)"),
        ("(map 1 0 2)", "(map 1 0)"),
        ("(map 1 0 2)", "(map 1 0 2 0)"),
        ("(row 10 10 40)\n", ""),
        ("(row 10 10 40)\n", "(row 10 10 40)\n(row 10 10 40)\n"),
        ("(map 1 0 2)\n", ""),
        ("(map 1 0 2)\n", "(map 1 0 2)\n(map 1 0 2)\n"),
        ("(row 10 10 40)\n(row 10 50 40)\n", ""),
        ("(map 1 0 2)\n(map 1 0 2)\n", ""),
        (
            "(row 10 10 40)\n(row 10 50 40)\n(map 1 0 2)\n(map 1 0 2)\n",
            "",
        ),
        (
            "(row 10 50 40)\n(map 1 0 2)",
            "(row 10 50 40)\n(map 1 0 2)\n(map 1 0 2)",
        ),
        ("(size 3 2 grey)", "(size 2 3 grey)"),
        ("(size 3 2 grey)", "(size 4 2 grey)"),
        ("(size 3 2 grey)", "(size 3 1 grey)"),
    ] {
        assert_eq!(refusal(&changed(old, new)), Some(4), "{old} to {new}");
    }
    for (old, new) in [
        ("(row (1 2 3) (40 50 60) (7 80 9))", "(row)"),
        (
            "(row (1 2 3) (40 50 60) (7 80 9))",
            "(row (1 2 3) (40 50 60))",
        ),
        ("(row (1 2 3)", "(row (1 2 3) (1 2 3)"),
    ] {
        assert_eq!(refusal(&changed_rgb(old, new)), Some(4), "{old} to {new}");
    }
}

#[test]
fn broken_forms_are_one() {
    let hundred_digits = format!("(map 1 {} 2)", "1".repeat(100));
    let hundred_zeros = format!("(map 1 {} 2)", "0".repeat(100));
    for (old, new) in [
        // The named example, and other numbers.
        ("(size 3 2 grey)", "(size 03 2 grey)"),
        ("(size 3 2 grey)", "(size 3 00 grey)"),
        ("(size 3 2 grey)", "(size 65536 2 grey)"),
        ("(range 2 1)", "(range 65536 1)"),
        ("(range 2 1)", "(range 02 1)"),
        ("(row 10 10 40)", "(row 10 010 40)"),
        ("(row 10 10 40)", "(row 10 256 40)"),
        ("(row 10 10 40)", "(row 10 00 40)"),
        ("(row 10 10 40)", "(row 10 -1 40)"),
        ("(row 10 10 40)", "(row 10 +1 40)"),
        ("(row 10 10 40)", "(row 10 1x 40)"),
        ("(row 10 10 40)", "(row 10 ten 40)"),
        ("(map 1 0 2)", "(map 1 00 2)"),
        ("(map 1 0 2)", "(map 1 65536 2)"),
        ("(map 1 0 2)", "(map 1 99999 2)"),
        ("(map 1 0 2)", hundred_digits.as_str()),
        ("(map 1 0 2)", hundred_zeros.as_str()),
        // Blanks and brackets.
        ("(row 10 10 40)", "(row )"),
        ("(row 10 10 40)", "(row  10 10 40)"),
        ("(row 10 10 40)", "(row 10  10 40)"),
        ("(row 10 10 40)", "(row 10 10 40 )"),
        ("(row 10 10 40)", "( row 10 10 40)"),
        ("(row 10 10 40)", " (row 10 10 40)"),
        ("(row 10 10 40)", "(row 10 10 40) "),
        ("(row 10 10 40)", "(row 10 10 40"),
        ("(row 10 10 40)", "row 10 10 40)"),
        ("(row 10 10 40)", "(row 10 10 40))"),
        ("(row 10 10 40)", "((row 10 10 40)"),
        ("(row 10 10 40)", "(row10 10 40)"),
        ("(row 10 10 40)", "(row (10) (10) (40))"),
        ("(row 10 10 40)", "(row (10) 10 40)"),
        ("(row 10 10 40)", "(row ((10)) 10 40)"),
        ("(row 10 10 40)", "(row (10 10 40) (1 2 3) (4 5 6))"),
        ("(map 1 0 2)", "(map )"),
        ("(map 1 0 2)", "(map 1 (0) 2)"),
        ("(multi\n", "(multi \n"),
        ("(multi\n", "( multi\n"),
        ("(multi\n", "(multi "),
        ("(multi\n", "(multi"),
        // Words.
        ("(multi", "(multy"),
        ("(multi", "(Multi"),
        ("grey", "gray"),
        ("grey", "Grey"),
        ("grey", "rgb"),
        ("grey", "grey16"),
        ("(size", "(Size"),
        ("(range", "(ranges"),
        ("(row", "(rows"),
        ("(row", "(Row"),
        ("(map", "(maps"),
        ("(map", "(mop"),
        // Size and range lines.
        ("(size 3 2 grey)", "(size 3 grey)"),
        ("(size 3 2 grey)", "(size 3 2)"),
        ("(size 3 2 grey)", "(size 3 2 1 grey)"),
        ("(size 3 2 grey)", "(size 3 2 grey 1)"),
        ("(size 3 2 grey)", "(size grey 3 2)"),
        ("(size 3 2 grey)", "(size)"),
        ("(range 2 1)", "(range 2)"),
        ("(range 2 1)", "(range 2 1 0)"),
        ("(range 2 1)", "(range)"),
        ("(range 2 1)\n", ""),
        ("(size 3 2 grey)\n", ""),
        ("(range 2 1)\n", "(range 2 1)\n(range 2 1)\n"),
        ("(size 3 2 grey)\n", "(size 3 2 grey)\n(size 3 2 grey)\n"),
        (
            "(size 3 2 grey)\n(range 2 1)\n",
            "(range 2 1)\n(size 3 2 grey)\n",
        ),
        // Lines.
        (
            "(row 10 50 40)\n(map 1 0 2)\n",
            "(map 1 0 2)\n(row 10 50 40)\n",
        ),
        ("\n(row 10 10 40)", "\n\n(row 10 10 40)"),
        ("\n(row 10 10 40)", "\r\n(row 10 10 40)"),
        ("\n(row 10 10 40)", "\t\n(row 10 10 40)"),
        ("(row 10 10 40)\n", "(row 10 10\n40)\n"),
        ("(row 10 10 40)\n(row", "(row 10 10 40) (row"),
        ("(row 10 10 40)\n(row", "(row 10 10 40)(row"),
        ("(map 1 0 2)\n)\n", "(map 1 0 2))\n"),
        ("\n)\n", "\n)"),
        ("\n)\n", "\n"),
        ("\n)\n", "\n))\n"),
        ("\n)\n", "\n)\n\n"),
        ("\n)\n", "\n)\n)\n"),
        ("\n)\n", "\n) \n"),
        ("\n)\n", "\n)\n "),
        ("\n)\n", "\n)\0\n"),
    ] {
        assert_eq!(refusal(&changed(old, new)), Some(1), "{old} to {new}");
    }
    for (old, new) in [
        ("(1 2 3)", "1"),
        ("(1 2 3)", "1 2 3"),
        ("(1 2 3)", "()"),
        ("(1 2 3)", "(1 2)"),
        ("(1 2 3)", "(1 2 3 4)"),
        ("(1 2 3)", "(1 2 256)"),
        ("(1 2 3)", "(1 2 03)"),
        ("(1 2 3)", "( 1 2 3)"),
        ("(1 2 3)", "(1 2 3 )"),
        ("(1 2 3)", "((1 2 3))"),
        ("(1 2 3) ", "(1 2 3)"),
        ("(1 2 3) ", "(1 2 3)  "),
        ("(1 2 3) (40 50 60)", "(1 2 3 40 50 60)"),
        ("(1 2 3) (40 50 60)", "(1 2) (3 40 50 60)"),
        ("(1 2 3) (40 50 60) (7 80 9)", "()"),
        ("rgb", "grey"),
        ("rgb", "rgb16"),
    ] {
        assert_eq!(refusal(&changed_rgb(old, new)), Some(1), "{old} to {new}");
    }
    for file in [
        "",
        "\n",
        "(",
        ")",
        ")\n",
        "(multi\n",
        "(multi\n)\n",
        "(multi)\n",
        "x",
    ] {
        assert_eq!(refusal(file), Some(1), "{file}");
    }
}

/// The energy line missing, doubled or at another place.
#[test]
fn energy_lines_out_of_place_are_one() {
    let file = |lines: &[&str]| format!("{}\n", lines.join("\n"));
    let (size, range, energy) = ("(size 3 2 grey)", "(range 2 1)", "(energy edge)");
    let (row, other_row, map) = ("(row 10 10 40)", "(row 10 50 40)", "(map 1 0 2)");
    let lines = ["(multi", size, range, energy, row, other_row, map, map, ")"];
    assert_eq!(refusal(&file(&lines)), None);
    let mut without = lines.to_vec();
    without.remove(3);
    assert_eq!(refusal(&file(&without)), Some(1));
    for place in 0..=without.len() {
        for word in ["edge", "flat", "forward"] {
            let line = format!("(energy {word})");
            let mut moved = without.clone();
            moved.insert(place, &line);
            if place != 3 {
                assert_eq!(refusal(&file(&moved)), Some(1), "{place}");
            }
            let mut doubled = lines.to_vec();
            doubled.insert(place, &line);
            assert_eq!(refusal(&file(&doubled)), Some(1), "{place}");
        }
    }
}

/// Lines that aren't the word `energy`, a blank and one of the three words.
const BROKEN_ENERGY_LINES: [&str; 48] = [
    "",
    "energy edge",
    "(energy)",
    "(energy )",
    "(energy ())",
    "(energy (edge))",
    "((energy edge))",
    "(energy  edge)",
    "(energy edge )",
    "( energy edge)",
    "(energy edge) ",
    "(energyedge)",
    "(energy edge flat)",
    "(energy edge edge)",
    "(energy edge 1)",
    "(energy 1)",
    "(energy 0)",
    "(energy grey)",
    "(energy rgb)",
    "(energy range)",
    "(energy energy)",
    "(energy Edge)",
    "(energy EDGE)",
    "(energy edges)",
    "(energy edg)",
    "(energy e)",
    "(energy FLAT)",
    "(energy fla)",
    "(energy flat1)",
    "(energy flats)",
    "(energy flatedge)",
    "(energy forwar)",
    "(energy forwards)",
    "(energy forward )",
    "(energy FORWARD)",
    "(energy for)",
    "(energy for ward)",
    "(energy backward)",
    "(energy forward edge)",
    "(energy steep)",
    "(Energy edge)",
    "(energies edge)",
    "(energ edge)",
    "(edge)",
    "(edge energy)",
    "(range 2 1)",
    "(energy\tedge)",
    "(energy edge)\r",
];

#[test]
fn broken_energy_lines_are_one() {
    for line in BROKEN_ENERGY_LINES {
        let file = changed("(energy edge)", line);
        assert_eq!(refusal(&file), Some(1), "{line}");
        let file = changed_rgb("(energy flat)", line);
        assert_eq!(refusal(&file), Some(1), "{line}");
        let file = FORWARD_FILE.replace("(energy forward)", line);
        assert_eq!(refusal(&file), Some(1), "{line}");
    }
}

/// Numbers of every length up to 100 digits, wherever a number stands.
#[test]
fn long_numbers_are_one() {
    for length in 6..=100 {
        for digit in ["1", "9"] {
            let number = digit.repeat(length);
            for (old, new) in [
                ("(size 3 2", format!("(size {number} 2")),
                ("(size 3 2", format!("(size 3 {number}")),
                ("(range 2 1)", format!("(range {number} 1)")),
                ("(range 2 1)", format!("(range 2 {number})")),
                ("(row 10 10", format!("(row 10 {number}")),
                ("(map 1 0", format!("(map 1 {number}")),
            ] {
                assert_eq!(refusal(&changed(old, &new)), Some(1));
            }
        }
    }
}

/// A broken byte in the last line beats 2, 3, 4, 6 and 9 to 11.
#[test]
fn form_beats_all() {
    for (old, new, number) in [
        ("(size 3 2 grey)", "(size 0 2 grey)", 2),
        ("(size 3 2 grey)", "(size 3 0 grey)", 2),
        ("(size 3 2 grey)", "(size 0 600 grey)", 2),
        ("(size 3 2 grey)", "(size 513 2 grey)", 3),
        ("(size 3 2 grey)", "(size 3 513 grey)", 3),
        ("(size 3 2 grey)", "(size 65535 1 grey)", 3),
        ("(size 3 2 grey)", "(size 65535 65535 grey)", 3),
        ("(size 3 2 grey)", "(size 512 512 grey)", 4),
        ("(range 2 1)", "(range 3 1)", 6),
        ("(range 2 1)", "(range 65535 0)", 6),
        ("(range 2 1)", "(range 2 65535)", 6),
        ("(range 2 1)", "(range 2 2)", 6),
        ("(range 2 1)", "(range 0 1)", 6),
        ("(map 1 0 2)", "(map 2 2 1)", 9),
        ("(map 1 0 2)", "(map 1 0 0)", 9),
        ("(map 1 0 2)", "(map 1 3 2)", 9),
        ("(map 1 0 2)", "(map 1 65535 2)", 9),
        ("(map 1 0 2)", "(map 2 0 1)", 10),
        ("(map 1 0 2)\n(map 1 0 2)", "(map 1 0 2)\n(map 1 2 0)", 11),
        ("(energy edge)", "(energy flat)", 11),
        ("(energy edge)", "(energy forward)", 11),
    ] {
        let file = changed(old, new);
        assert_eq!(refusal(&file), Some(number), "{old} to {new}");
        assert_eq!(refusal(&file.replace("\n)\n", "\n)")), Some(1));
        assert_eq!(
            refusal(&file.replace("(row 10 50 40)", "(row 10 50 256)")),
            Some(1)
        );
    }
    // Counts before the range, the range before the map.
    let file = changed("(range 2 1)", "(range 3 1)").replace("(row 10 10 40)", "(row 10 10)");
    assert_eq!(refusal(&file), Some(4));
    let file = changed("(range 2 1)", "(range 3 1)").replace("(map 1 0 2)", "(map 2 2 1)");
    assert_eq!(refusal(&file), Some(6));
}

#[test]
fn every_changed_byte() {
    for file in [
        EXAMPLE_FILE.to_string(),
        rgb_file(),
        FORWARD_FILE.to_string(),
    ] {
        let file = file.into_bytes();
        for place in 0..=file.len() {
            for byte in 0..=255 {
                let mut inserted = file.clone();
                inserted.insert(place, byte);
                assert_eq!(checked(&inserted).map(|_| ()), verdict(&inserted));
                if place < file.len() {
                    let mut replaced = file.clone();
                    replaced[place] = byte;
                    assert_eq!(checked(&replaced).map(|_| ()), verdict(&replaced));
                }
            }
            assert_eq!(checked(&file[..place]).is_ok(), place == file.len());
            if place < file.len() {
                let mut without = file.clone();
                without.remove(place);
                assert_eq!(checked(&without).map(|_| ()), verdict(&without));
                assert_eq!(checked(&file[..place]).err(), Some(1));
            }
        }
    }
}

/// A line with two of its words exchanged, the bracket at its end kept.
fn with_exchanged_words(random: &mut Random, line: &str) -> String {
    let Some(inside) = line.strip_suffix(')') else {
        return line.to_string();
    };
    let mut words: Vec<&str> = inside.split(' ').collect();
    let (one, other) = (random.below(words.len()), random.below(words.len()));
    words.swap(one, other);
    words.join(" ") + ")"
}

/// A text with a few words or lines changed, dropped, doubled or exchanged.
pub fn edited(random: &mut Random, file: &str) -> Vec<u8> {
    const WORDS: [&str; 27] = [
        "0", "1", "2", "3", "4", "5", "10", "40", "50", "255", "256", "512", "513", "65535",
        "65536", "00", "03", "grey", "rgb", "edge", "flat", "forward", "(1 2 3)", "(1 2)", "()",
        "x", "",
    ];
    let mut lines: Vec<String> = file.split('\n').map(|line| line.to_string()).collect();
    for _ in 0..random.between(1, 3) {
        let place = random.below(lines.len());
        let other = random.below(lines.len());
        match random.below(11) {
            0 => {
                lines.remove(place);
            }
            1 => lines.insert(place, lines[other].clone()),
            2 => lines.swap(place, other),
            3 => lines[place] = with_exchanged_words(random, &lines[place]),
            kind => {
                let mut words: Vec<String> = lines[place]
                    .split(' ')
                    .map(|word| word.to_string())
                    .collect();
                let place_in_line = random.below(words.len());
                // Keep the bracket at the line's end, so that many changed
                // texts still have a good form.
                let tail = if words[place_in_line].ends_with(')') && kind < 10 {
                    ")"
                } else {
                    ""
                };
                let word = format!("{}{}", random.pick(&WORDS), tail);
                match kind {
                    4 => {
                        words.remove(place_in_line);
                    }
                    5 => words.insert(place_in_line, random.pick(&WORDS).to_string()),
                    _ => words[place_in_line] = word,
                }
                lines[place] = words.join(" ");
            }
        }
        if lines.is_empty() {
            lines.push(String::new());
        }
    }
    lines.join("\n").into_bytes()
}

#[test]
fn edited_texts() {
    let mut random = Random::new(51);
    let mut seen = [0; 12];
    for file in [
        EXAMPLE_FILE.to_string(),
        rgb_file(),
        FORWARD_FILE.to_string(),
    ] {
        for _ in 0..30_000 {
            let text = edited(&mut random, &file);
            let answer = checked(&text);
            assert_eq!(answer.map(|_| ()), verdict(&text));
            seen[usize::from(answer.err().unwrap_or(0))] += 1;
        }
    }
    // Each answer but 5, 7 and 8 occurs.
    for number in [0, 1, 2, 3, 4, 6, 9, 10, 11] {
        assert!(seen[number] > 0, "{number} does not occur");
    }
}

/// Every other operation on a file refuses what checking refuses.
#[test]
fn reading_and_showing_refuse_alike() {
    let mut random = Random::new(52);
    for file in [
        EXAMPLE_FILE.to_string(),
        rgb_file(),
        FORWARD_FILE.to_string(),
    ] {
        for _ in 0..5_000 {
            let text = edited(&mut random, &file);
            let answer = checked(&text);
            assert_eq!(read_back(&text).map(|(info, _, _)| info), answer);
            if let Ok(info) = answer {
                assert!(shown(&text, info.size.width).is_ok());
                let too_wide = info.size.width + info.growth + 1;
                assert_eq!(shown(&text, too_wide), Err(7));
            } else if let Err(number @ 1..=6) = answer {
                assert_eq!(shown(&text, 3), Err(number));
                assert_eq!(shown(&text, usize::MAX), Err(number));
            } else {
                assert_eq!(shown(&text, usize::MAX), Err(7));
            }
        }
    }
}
