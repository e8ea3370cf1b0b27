//! Changes to the bytes and lines of a file's text.

// All changes have one type, though some keep the length.
#![allow(clippy::ptr_arg)]

use crate::random::Random;

type Change = fn(&mut Random, &mut Vec<u8>);

const CHANGES: [Change; 12] = [
    flip_bit,
    replace_byte,
    insert_byte,
    remove_byte,
    exchange_lines,
    double_line,
    remove_line,
    cut_short,
    drop_last_line_end,
    go_on,
    spoil_line_end,
    take_capital,
];

/// Bytes that a text may hold, and some that it may not.
const BYTES: &[u8] = b"0123456789() \nabgrsuz\t\r\0AZ,-.[]{}\x7f\x80\xff";

pub fn change(random: &mut Random, text: &mut Vec<u8>) {
    random.pick(&CHANGES)(random, text);
}

fn flip_bit(random: &mut Random, text: &mut Vec<u8>) {
    if let Some(byte) = any_byte(random, text) {
        *byte ^= 1 << random.below(8);
    }
}

fn replace_byte(random: &mut Random, text: &mut Vec<u8>) {
    if let Some(byte) = any_byte(random, text) {
        *byte = random.pick(BYTES);
    }
}

fn insert_byte(random: &mut Random, text: &mut Vec<u8>) {
    let place = random.between(0, text.len());
    text.insert(place, random.pick(BYTES));
}

fn remove_byte(random: &mut Random, text: &mut Vec<u8>) {
    if !text.is_empty() {
        text.remove(random.below(text.len()));
    }
}

fn exchange_lines(random: &mut Random, text: &mut Vec<u8>) {
    change_lines(text, |lines| {
        let (one, other) = (random.below(lines.len()), random.below(lines.len()));
        lines.swap(one, other);
    });
}

fn double_line(random: &mut Random, text: &mut Vec<u8>) {
    change_lines(text, |lines| {
        let place = random.below(lines.len());
        lines.insert(place, lines[place].clone());
    });
}

fn remove_line(random: &mut Random, text: &mut Vec<u8>) {
    change_lines(text, |lines| {
        lines.remove(random.below(lines.len()));
    });
}

/// The text up to any place, and often none at all.
fn cut_short(random: &mut Random, text: &mut Vec<u8>) {
    let length = random.between(0, text.len());
    text.truncate(random.pick(&[0, length, length, length]));
}

fn drop_last_line_end(_: &mut Random, text: &mut Vec<u8>) {
    text.pop();
}

/// Something after the last line.
fn go_on(random: &mut Random, text: &mut Vec<u8>) {
    let more: &[u8] = random.pick(&[b"\n", b" ", b")", b")\n", b"\0", b"(map)\n"]);
    text.extend_from_slice(more);
}

/// Something ahead of a line end, a blank that is a tab, or an empty line.
fn spoil_line_end(random: &mut Random, text: &mut Vec<u8>) {
    let sought = random.pick(b"\n\n ");
    let Some(place) = any_place_of(random, text, |byte| byte == sought) else {
        return;
    };
    if sought == b' ' {
        text[place] = random.pick(b"\t\n(");
    } else {
        text.insert(place, random.pick(b"\r\t \n)"));
    }
}

fn take_capital(random: &mut Random, text: &mut Vec<u8>) {
    if let Some(place) = any_place_of(random, text, |byte| byte.is_ascii_lowercase()) {
        text[place] = text[place].to_ascii_uppercase();
    }
}

fn any_byte<'a>(random: &mut Random, text: &'a mut [u8]) -> Option<&'a mut u8> {
    let count = text.len().max(1);
    text.get_mut(random.below(count))
}

fn any_place_of(random: &mut Random, text: &[u8], sought: impl Fn(u8) -> bool) -> Option<usize> {
    let places: Vec<usize> = (0..text.len()).filter(|at| sought(text[*at])).collect();
    if places.is_empty() {
        return None;
    }
    Some(random.pick(&places))
}

/// Changes the lines, each with its line end; there is at least one.
fn change_lines(text: &mut Vec<u8>, change: impl FnOnce(&mut Vec<Vec<u8>>)) {
    let lines = text.split_inclusive(|byte| *byte == b'\n');
    let mut lines: Vec<Vec<u8>> = lines.map(<[u8]>::to_vec).collect();
    if !lines.is_empty() {
        change(&mut lines);
        *text = lines.concat();
    }
}

#[cfg(test)]
mod tests {
    use super::super::tests::{answers, drawn};
    use super::*;

    #[test]
    fn each_change_gives_its_numbers() {
        for (name, change, numbers) in [
            ("flip", flip_bit as Change, &[1][..]),
            ("replace", replace_byte, &[0, 1]),
            ("insert", insert_byte, &[1]),
            ("remove", remove_byte, &[1]),
            ("exchange", exchange_lines, &[0, 1, 11]),
            ("double", double_line, &[1, 4]),
            ("remove line", remove_line, &[1, 4]),
            ("cut", cut_short, &[1]),
            ("last line end", drop_last_line_end, &[1]),
            ("go on", go_on, &[1]),
            ("line end", spoil_line_end, &[1]),
            ("capital", take_capital, &[1]),
        ] {
            let answers = answers(7, |random, parts| {
                let mut text = parts.text();
                change(random, &mut text);
                text
            });
            for number in numbers {
                assert!(answers.contains(number), "{name}: no {number}");
            }
        }
    }

    #[test]
    fn named_texts_occur() {
        let mut random = Random::new(8);
        let mut texts = Vec::new();
        for _ in 0..3000 {
            let mut text = drawn(&mut random).text();
            change(&mut random, &mut text);
            texts.push(text);
        }
        let holds = |part: &[u8]| {
            let found = |text: &Vec<u8>| text.windows(part.len()).any(|some| some == part);
            texts.iter().any(found)
        };
        for part in [b"\r\n", b"\t\n", b" \n", b"\n\n", b"\n)", b"(M", b"(R"] {
            assert!(holds(part), "no {}", part.escape_ascii());
        }
        assert!(texts.iter().any(Vec::is_empty));
        assert!(texts.iter().any(|text| text.ends_with(b"\n)")));
        assert!(texts.iter().any(|text| text.ends_with(b"\n)\n\n")));
        assert!(texts.iter().any(|text| text.contains(&b'\t')));
    }
}
