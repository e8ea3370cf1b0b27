//! A case in which the two sides differ, written out.

use crate::spaces::{Lent, Place};
use std::fmt::{Display, Write};

/// Values on a line where no row length is known.
const LINE: usize = 32;

/// The longest row of a picture, in bytes.
const LONGEST_ROW: usize = 3 * 512;

/// The case in sections: arguments, answers, buffers.
pub struct Difference {
    sections: Vec<String>,
}

impl Difference {
    pub fn new() -> Difference {
        Difference {
            sections: Vec::new(),
        }
    }

    /// An argument or an answer.
    pub fn value(&mut self, name: &str, value: impl Display) {
        self.sections.push(format!("{name}: {value}"));
    }

    /// A text by its lines; bytes that aren't printed are escaped.
    pub fn lines(&mut self, name: &str, text: &[u8]) {
        let mut section = format!("{name} as text:");
        for line in text.split_inclusive(|byte| *byte == b'\n') {
            write!(section, "\n  {}", line.escape_ascii()).expect("a string takes all text");
        }
        self.sections.push(section);
    }

    /// A buffer as it was lent and as each side left it, in rows of `row`
    /// values.
    pub fn buffer<T: Place>(&mut self, name: &str, row: usize, forms: Forms<T>) {
        self.form(&format!("{name} as lent"), row, forms.lent);
        if forms.left.iter().all(|(_, left)| *left == forms.lent) {
            self.value(name, "left unchanged by both");
            return;
        }
        let [(one, by_one), (other, by_other)] = forms.left;
        let Some((place, first, second)) = by_one.first_difference(by_other) else {
            self.form(&format!("{name} after both"), row, by_one);
            return;
        };
        self.form(&format!("{name} after the {one}"), row, by_one);
        self.form(&format!("{name} after the {other}"), row, by_other);
        let place = place_name(place, forms.lent.part().len());
        let values = format!("{one} {first}, {other} {second}");
        self.value(name, format!("first difference at place {place}: {values}"));
    }

    fn form<T: Place>(&mut self, name: &str, row: usize, lent: &Lent<T>) {
        let part = lent.part();
        let row = if (1..=LONGEST_ROW).contains(&row) {
            row
        } else {
            LINE
        };
        let mut text = format!("{name}, {} places:", part.len());
        for line in part.chunks(row) {
            text.push_str("\n ");
            for value in line {
                write!(text, " {value}").expect("a string takes all text");
            }
        }
        self.sections.push(text);
    }

    /// The sections, each cut to so many characters.
    pub fn text(&self, most: usize) -> String {
        let sections: Vec<String> = self.sections.iter().map(|text| cut(text, most)).collect();
        sections.join("\n")
    }
}

/// All characters written are ASCII.
fn cut(text: &str, most: usize) -> String {
    if text.len() <= most {
        return String::from(text);
    }
    format!("{} ... (repeat the case alone to see all)", &text[..most])
}

/// One buffer at three times: as it was lent and as each side left it, with
/// the names of the sides.
pub struct Forms<'a, T> {
    pub lent: &'a Lent<T>,
    pub left: [(&'a str, &'a Lent<T>); 2],
}

fn place_name(place: isize, length: usize) -> String {
    if (0..length as isize).contains(&place) {
        place.to_string()
    } else {
        format!("{place} (outside of the lent part)")
    }
}

#[cfg(test)]
mod tests {
    use super::*;
    use crate::random::Random;

    fn text(reference: &[u8], library: &[u8], most: usize) -> String {
        let holding = |contents| Lent::holding(&mut Random::new(1), contents);
        let mut difference = Difference::new();
        let forms = Forms {
            lent: &holding(&[1, 2, 3, 4]),
            left: [
                ("reference", &holding(reference)),
                ("library", &holding(library)),
            ],
        };
        difference.buffer("out", 2, forms);
        difference.text(most)
    }

    #[test]
    fn buffers_are_written_in_rows_with_the_first_difference() {
        let text = text(&[1, 2, 7, 8], &[1, 2, 7, 9], 1000);
        assert!(text.contains("out as lent, 4 places:\n  1 2\n  3 4\n"));
        assert!(text.contains("out after the library, 4 places:\n  1 2\n  7 9\n"));
        assert!(text.ends_with("first difference at place 3: reference 8, library 9"));
    }

    #[test]
    fn unchanged_and_equal_buffers_are_written_once() {
        let unchanged = text(&[1, 2, 3, 4], &[1, 2, 3, 4], 1000);
        assert!(unchanged.ends_with("3 4\nout: left unchanged by both"));
        let equal = text(&[1, 2, 0, 0], &[1, 2, 0, 0], 1000);
        assert!(equal.ends_with("3 4\nout after both, 4 places:\n  1 2\n  0 0"));
    }

    #[test]
    fn texts_are_written_by_lines() {
        let mut difference = Difference::new();
        difference.lines("file", b"(a\n)\r\n\xff");
        assert_eq!(
            difference.text(1000),
            "file as text:\n  (a\\n\n  )\\r\\n\n  \\xff"
        );
    }

    #[test]
    fn long_sections_are_cut() {
        let text = text(&[1, 2, 3, 4], &[1, 2, 3, 4], 10);
        assert!(text.starts_with("out as len ... (repeat"));
    }
}
