//! The line with a wanted width that `fit` reads ahead of a file.

use crate::damage::broken;
use crate::faults::Faults;
use crate::random::Random;

/// Lines whose form is broken around a good number; `#` stands for the number.
const SPOILT: [&str; 14] = [
    "#", "#\r\n", "# \n", " #\n", "\n#\n", "#\t\n", "#\r", "# #\n", "#)\n", "(#)\n", "+#\n",
    "-#\n", "#\0\n", "",
];

/// The line of a width. A fault is a broken form.
pub fn line(random: &mut Random, wanted: usize, faults: Faults) -> Vec<u8> {
    let number = wanted.to_string();
    if !faults.strike(random, 4) {
        return format!("{number}\n").into_bytes();
    }
    if random.one_in(2) {
        return format!("{}\n", broken(random, &number)).into_bytes();
    }
    random.pick(&SPOILT).replace('#', &number).into_bytes()
}

#[cfg(test)]
mod tests {
    use super::*;

    #[test]
    fn named_lines_occur() {
        let mut random = Random::new(1);
        assert_eq!(line(&mut random, 30, Faults::Never), b"30\n");
        let mut drawn = || line(&mut random, 30, Faults::Maybe);
        let lines: Vec<Vec<u8>> = (0..4000).map(|_| drawn()).collect();
        let digits = "1".repeat(100) + "\n";
        for named in [
            "30\n", "030\n", "30", "", "\n", "30\r\n", " 30\n", "30 \n", "\n30\n", "65536\n",
            "00\n", "-1\n", "30\t\n", &digits,
        ] {
            assert!(
                lines.iter().any(|line| line == named.as_bytes()),
                "{named:?}"
            );
        }
    }
}
