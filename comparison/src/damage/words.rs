//! Changes to the words of a file's lines: numbers, kinds, energies, counts.

use crate::random::Random;
use crate::texts::{some_numbers, EnergyLine, Words, PLACES};

type Change = fn(&mut Random, &mut Words);

const CHANGES: [Change; 17] = [
    replace_side,
    replace_side,
    replace_range,
    replace_range,
    replace_kind,
    replace_energy,
    replace_energy,
    break_energy,
    move_energy,
    drop_or_add_energy,
    replace_item,
    replace_item,
    drop_or_add_item,
    drop_or_add_line,
    change_head_count,
    empty_line,
    take_refused_size,
];

/// Numbers that break their form wherever they stand.
const BROKEN: [&str; 10] = [
    "00", "03", "010", "65536", "99999", "-1", "+1", "1x", "x", "",
];

/// The three energies, and what isn't one: other words, the three cut short or
/// longer, numbers, capital letters.
const ENERGIES: [&str; 27] = [
    "edge", "flat", "forward", "edge", "flat", "forward", "Edge", "FLAT", "flaT", "Forward",
    "steep", "grey", "rgb", "energy", "edges", "edg", "flats", "fla", "forwards", "forwar",
    "backward", "0", "1", "2", "", "(edge)", "()",
];

/// Energy lines that break their form otherwise than by the word that they name.
const ENERGY_LINES: [&str; 27] = [
    "(energy)",
    "(energyedge)",
    "(energy  edge)",
    "( energy edge)",
    "(energy edge )",
    "(energy edge edge)",
    "(energy edge flat)",
    "(energy flat 1)",
    "(edge)",
    "(flat)",
    "(flat energy)",
    "(energyforward)",
    "(energy forward edge)",
    "(energy for ward)",
    "(energies edge)",
    "(energ flat)",
    "(Energy edge)",
    "(range edge)",
    "energy edge",
    "(energy edge",
    "energy flat)",
    "((energy edge))",
    "(energy flat))",
    " (energy edge)",
    "(energy flat) ",
    "(energy\tedge)",
    "",
];

/// Items that break the form of one kind or of both.
const ITEMS: [&str; 10] = [
    "256",
    "65535",
    "()",
    "(1 2)",
    "(1 2 3)",
    "(1 2 3 4)",
    "((1 2 3))",
    "(1 2 256)",
    "7",
    "(7)",
];

pub fn change(random: &mut Random, words: &mut Words) {
    random.pick(&CHANGES)(random, words);
}

/// Width or height: 0 gives 2, one over 512 gives 3, another 4.
fn replace_side(random: &mut Random, words: &mut Words) {
    let named = [0, 0, 513, 512, 600, 65535];
    replace_number(random, &mut words.size, &named);
}

/// Depth or growth: 6, and for a smaller depth 9.
fn replace_range(random: &mut Random, words: &mut Words) {
    let width = words.size.first().and_then(|word| word.parse().ok());
    let width: usize = width.unwrap_or(3);
    let named = [0, width, width + 1, width / 2 + 1, 512, 65535];
    replace_number(random, &mut words.range, &named);
}

/// The first or second number of a line becomes a neighbour of it, one of those
/// named, or one that breaks the form.
pub fn replace_number(random: &mut Random, line: &mut [String], named: &[usize]) {
    let place = random.below(2);
    let Some(given) = line.get_mut(place) else {
        return;
    };
    let number: usize = given.parse().unwrap_or(1);
    *given = match random.below(8) {
        0 => (number + 1).to_string(),
        1 => number.saturating_sub(1).to_string(),
        2 => broken(random, given),
        _ => random.pick(named).to_string(),
    };
}

/// A number that breaks its form; the given one with a zero ahead, or one of
/// 100 digits, too.
pub fn broken(random: &mut Random, given: &str) -> String {
    match random.below(4) {
        0 => format!("0{given}"),
        1 => random.pick(&["1", "9", "0"]).repeat(100),
        _ => random.pick(&BROKEN).to_string(),
    }
}

fn replace_kind(random: &mut Random, words: &mut Words) {
    let kinds = ["grey", "rgb", "Grey", "RGB", "gray", "rgb16", "1", ""];
    if let Some(kind) = words.size.get_mut(2) {
        *kind = random.pick(&kinds).to_string();
    }
}

/// Another word gives 1; another energy, by which the file is judged then, 11.
fn replace_energy(random: &mut Random, words: &mut Words) {
    let word = random.pick(&ENERGIES);
    set_energy_line(words, &format!("(energy {word})"));
}

/// An energy line of another form: 1.
fn break_energy(random: &mut Random, words: &mut Words) {
    set_energy_line(words, random.pick(&ENERGY_LINES));
}

fn set_energy_line(words: &mut Words, text: &str) {
    if let Some(line) = words.energy.first_mut() {
        line.text = text.to_string();
    }
}

/// The energy line ahead of all lines, of the size or of the range, after the
/// rows, after the map or after all lines: 1.
fn move_energy(random: &mut Random, words: &mut Words) {
    if let Some(line) = words.energy.first_mut() {
        line.place = random.pick(&[0, 1, 2, 4, 5, 6]);
    }
}

/// No energy line, or a second one with any energy, at any place: 1.
fn drop_or_add_energy(random: &mut Random, words: &mut Words) {
    if random.one_in(2) {
        words.energy.pop();
    } else {
        let mut line = EnergyLine::of(random.pick(&["edge", "flat", "forward"]));
        let any = random.below(PLACES);
        line.place = random.pick(&[line.place, any]);
        words.energy.push(line);
    }
}

/// An item of a row or of a map row.
fn replace_item(random: &mut Random, words: &mut Words) {
    let Some(line) = any_line(random, words) else {
        return;
    };
    if line.is_empty() {
        return;
    }
    let place = random.below(line.len());
    line[place] = if random.one_in(2) {
        random.pick(&ITEMS).to_string()
    } else {
        broken(random, &line[place])
    };
}

/// One pixel or number too few or too many: 4.
fn drop_or_add_item(random: &mut Random, words: &mut Words) {
    if let Some(line) = any_line(random, words) {
        drop_or_double(random, line);
    }
}

fn drop_or_double<T: Clone>(random: &mut Random, all: &mut Vec<T>) {
    if all.is_empty() {
        return;
    }
    let place = random.below(all.len());
    if random.one_in(2) {
        all.remove(place);
    } else {
        all.insert(place, all[place].clone());
    }
}

/// One row line or map line too few or too many, or none at all: 4.
fn drop_or_add_line(random: &mut Random, words: &mut Words) {
    let lines = some_lines(random, words);
    if random.one_in(5) {
        lines.clear();
    } else {
        drop_or_double(random, lines);
    }
}

/// A number too few or too many in the size or the range: 1.
fn change_head_count(random: &mut Random, words: &mut Words) {
    if random.one_in(2) {
        drop_or_double(random, &mut words.size);
    } else {
        drop_or_double(random, &mut words.range);
    }
}

/// A row or map line without items gives 4, with a blank or brackets alone 1.
fn empty_line(random: &mut Random, words: &mut Words) {
    let Some(line) = any_line(random, words) else {
        return;
    };
    *line = match random.below(3) {
        0 => Vec::new(),
        1 => vec![String::new()],
        _ => vec![String::from("()")],
    };
}

/// A size that 2 or 3 refuses, with lines that agree with it.
fn take_refused_size(random: &mut Random, words: &mut Words) {
    let (width, height) = random.pick(&[(513, 1), (1, 513), (0, 2), (2, 0), (0, 0)]);
    let (kind, pixel) = random.pick(&[("grey", "7"), ("rgb", "(1 2 3)")]);
    let map = some_numbers(width, width / 2)
        .iter()
        .map(u16::to_string)
        .collect();
    words.size = vec![width.to_string(), height.to_string(), kind.to_string()];
    words.rows = vec![vec![pixel.to_string(); width]; height];
    words.map = vec![map; height];
}

fn some_lines<'a>(random: &mut Random, words: &'a mut Words) -> &'a mut Vec<Vec<String>> {
    if random.one_in(2) {
        &mut words.rows
    } else {
        &mut words.map
    }
}

/// A row line or a map line.
fn any_line<'a>(random: &mut Random, words: &'a mut Words) -> Option<&'a mut Vec<String>> {
    let lines = some_lines(random, words);
    let count = lines.len().max(1);
    lines.get_mut(random.below(count))
}

#[cfg(test)]
mod tests {
    use super::super::tests::{answers, drawn};
    use super::*;
    use std::collections::BTreeSet;

    #[test]
    fn each_change_gives_its_numbers() {
        for (name, change, numbers) in [
            ("side", replace_side as Change, &[1, 2, 3, 4][..]),
            ("range", replace_range, &[0, 1, 6, 9]),
            ("kind", replace_kind, &[0, 1]),
            ("energy", replace_energy, &[0, 1, 11]),
            ("energy's form", break_energy, &[1]),
            ("energy's place", move_energy, &[1]),
            ("energy lines", drop_or_add_energy, &[1]),
            ("item", replace_item, &[0, 1, 9]),
            ("items", drop_or_add_item, &[4]),
            ("lines", drop_or_add_line, &[4]),
            ("head", change_head_count, &[1]),
            ("empty", empty_line, &[1, 4]),
            ("refused", take_refused_size, &[2, 3]),
        ] {
            let answers = answers(5, |random, parts| {
                let mut words = Words::of(&parts);
                change(random, &mut words);
                words.text()
            });
            for number in numbers {
                assert!(answers.contains(number), "{name}: no {number}");
            }
        }
    }

    /// Forms that the specification names, and others that break it.
    const NAMED: [&str; 28] = [
        "(row)",
        "(row )",
        "(row ())",
        "(map)",
        "(map )",
        " 256",
        " 65535",
        " 65536",
        " 00",
        " 03",
        "(size 0 ",
        "(size 513 ",
        "(size 65535 ",
        " 513 ",
        "(range 65535 ",
        " 65535)\n",
        "(1 2)",
        "(1 2 3 4)",
        "((1 2 3))",
        "gray",
        "Grey",
        // The energy line doubled, after the map, after all lines, and missing.
        "(energy flat)\n(energy edge)",
        "(energy edge)\n(energy edge)",
        "(energy forward)\n(energy flat)",
        "(energy forward)\n(energy forward)",
        "(energy edge)\n)\n",
        "\n)\n(energy flat)\n",
        "(range 0 0)\n(row ",
    ];

    #[test]
    fn named_forms_occur() {
        let mut random = Random::new(6);
        let mut texts = Vec::new();
        for _ in 0..4000 {
            let mut words = Words::of(&drawn(&mut random));
            change(&mut random, &mut words);
            texts.push(String::from_utf8(words.text()).unwrap());
        }
        let (zeros, ones) = ("0".repeat(100), "1".repeat(100));
        for form in NAMED.into_iter().chain([zeros.as_str(), &ones]) {
            assert!(texts.iter().any(|text| text.contains(form)), "no {form}");
        }
        let words = ENERGIES.map(|word| format!("(energy {word})"));
        let lines = words.into_iter().chain(ENERGY_LINES.map(String::from));
        for line in lines.map(|line| format!(")\n{line}\n(row ")) {
            assert!(texts.iter().any(|text| text.contains(&line)), "no {line}");
        }
    }

    /// The word of the line ahead of the energy line, if there is one.
    fn word_ahead(words: &Words) -> Option<String> {
        let text = String::from_utf8(words.text()).unwrap();
        let (ahead, _) = text.split_once("(energy ").unwrap();
        let line = ahead.lines().last()?;
        line.split(' ').next().map(String::from)
    }

    #[test]
    fn energies_stand_at_each_other_place() {
        let mut random = Random::new(9);
        let mut ahead = BTreeSet::new();
        for _ in 0..100 {
            let mut words = Words::of(&drawn(&mut random));
            assert_eq!(word_ahead(&words).as_deref(), Some("(range"));
            move_energy(&mut random, &mut words);
            ahead.insert(word_ahead(&words));
        }
        let others = [")", "(map", "(multi", "(row", "(size"].map(|word| Some(word.to_string()));
        assert_eq!(ahead, BTreeSet::from_iter(others.into_iter().chain([None])));
    }
}
