//! The words of a command line: plain ones, flags, and options with their values.

use crate::failure::Failure;
use std::ffi::OsString;
use std::os::unix::ffi::{OsStrExt, OsStringExt};
use std::str::FromStr;

/// The words after a command's name.
pub struct Words {
    plain: Vec<OsString>,
    options: Vec<(String, OsString)>,
    flags: Vec<String>,
}

impl Words {
    /// Takes the options that a command has, each with its value: the word after it, or
    /// what stands after `=`. A flag has no value. A word that begins with a hyphen and
    /// has more is an option, up to the word `--`.
    pub fn of(words: Vec<OsString>, known: &[&str], flags: &[&str]) -> Result<Words, Failure> {
        let mut taken = Words {
            plain: Vec::new(),
            options: Vec::new(),
            flags: Vec::new(),
        };
        let mut words = words.into_iter();
        while let Some(word) = words.next() {
            if word == "--" {
                taken.plain.extend(words);
                break;
            }
            if word == "-" || !word.as_bytes().starts_with(b"-") {
                taken.plain.push(word);
                continue;
            }
            let (name, value) = split(&word);
            taken.judge(&name, known, flags)?;
            if flags.contains(&name.as_str()) {
                taken.flags.push(name.clone());
                match value {
                    Some(_) => return Err(Failure::Usage(format!("{name} takes no value"))),
                    None => continue,
                }
            }
            let value = value.or_else(|| words.next());
            let value = value.ok_or_else(|| Failure::Usage(format!("{name} needs a value")))?;
            taken.options.push((name, value));
        }
        Ok(taken)
    }

    /// Judges whether a command has an option and it isn't given twice.
    fn judge(&self, name: &str, known: &[&str], flags: &[&str]) -> Result<(), Failure> {
        if !known.contains(&name) && !flags.contains(&name) {
            return Err(Failure::Usage(format!("there is no option {name} here")));
        }
        let again = self.options.iter().any(|(other, _)| other == name);
        if again || self.flags.iter().any(|other| other == name) {
            return Err(Failure::Usage(format!("{name} is given twice")));
        }
        Ok(())
    }

    /// The plain words, which must be as many as their names.
    pub fn plain<const N: usize>(&mut self, names: [&str; N]) -> Result<[OsString; N], Failure> {
        let (first, rest) = self.plain_and_more(names)?;
        if let Some(extra) = rest.first() {
            let text = format!("{} is too much", extra.to_string_lossy());
            return Err(Failure::Usage(text));
        }
        Ok(first)
    }

    /// The plain words with names, and those after them.
    pub fn plain_and_more<const N: usize>(
        &mut self,
        names: [&str; N],
    ) -> Result<([OsString; N], Vec<OsString>), Failure> {
        let mut plain = std::mem::take(&mut self.plain);
        let rest = plain.split_off(N.min(plain.len()));
        let first = plain.try_into().map_err(|plain: Vec<OsString>| {
            Failure::Usage(format!("{} is missing", names[plain.len()]))
        })?;
        Ok((first, rest))
    }

    /// Whether a flag is given.
    pub fn flag(&self, name: &str) -> bool {
        self.flags.iter().any(|other| other == name)
    }

    /// The value of an option, if it is given.
    pub fn option(&mut self, name: &str) -> Option<OsString> {
        let place = self.options.iter().position(|(other, _)| other == name)?;
        Some(self.options.swap_remove(place).1)
    }

    /// The value of an option that is a number.
    pub fn number<T: FromStr>(&mut self, name: &str) -> Result<Option<T>, Failure> {
        self.option(name)
            .map(|value| number(name, value))
            .transpose()
    }
}

/// The name of an option, and its value where that stands after `=`.
fn split(word: &OsString) -> (String, Option<OsString>) {
    let bytes = word.as_bytes();
    let place = bytes.iter().position(|byte| *byte == b'=');
    match place.filter(|_| bytes.starts_with(b"--")) {
        Some(place) => (
            String::from_utf8_lossy(&bytes[..place]).into_owned(),
            Some(OsString::from_vec(bytes[place + 1..].to_vec())),
        ),
        None => (word.to_string_lossy().into_owned(), None),
    }
}

/// A word of digits alone as a number.
pub fn number<T: FromStr>(name: &str, word: OsString) -> Result<T, Failure> {
    let text = word.to_string_lossy();
    let digits = text.bytes().all(|byte| byte.is_ascii_digit());
    let value = text.parse().ok().filter(|_| digits);
    value.ok_or_else(|| Failure::Usage(format!("{name} can't be {text}")))
}

#[cfg(test)]
mod tests {
    use super::*;

    fn of(line: &str) -> Result<Words, Failure> {
        let words = line.split_whitespace().map(OsString::from).collect();
        Words::of(words, &["-o", "--depth"], &["--json"])
    }

    #[test]
    fn options_flags_and_plain_words() {
        let mut words = of("a --depth=3 -o - --json b").ok().unwrap();
        assert_eq!(words.number("--depth").ok(), Some(Some(3)));
        assert_eq!(words.option("-o"), Some("-".into()));
        assert!(words.flag("--json"));
        assert_eq!(words.plain(["", ""]).ok(), Some(["a".into(), "b".into()]));
    }

    #[test]
    fn two_hyphens_end_the_options() {
        let mut words = of("-o x -- -o --depth -").ok().unwrap();
        let plain = words.plain(["", "", ""]).ok().unwrap();
        assert_eq!(plain, ["-o", "--depth", "-"].map(OsString::from));
    }

    #[test]
    fn wrong_words_are_told() {
        for (line, told) in [
            ("--depth", "--depth needs a value"),
            ("--depth=1 --depth 2", "--depth is given twice"),
            ("--json --json", "--json is given twice"),
            ("--wide=1", "there is no option --wide here"),
            ("-o=x", "there is no option -o=x here"),
            ("--json=yes", "--json takes no value"),
        ] {
            let text = of(line).err().map(|failure| failure.to_string());
            assert!(text.is_some_and(|text| text.starts_with(told)), "{line}");
        }
    }
}
