//! What `pngtopnm` makes of the same files, where it is installed.

use crate::maker::{made, sorts};
use multisize::png;
use std::fs;
use std::path::Path;
use std::process::{self, Command};

/// Width, height and rgb pixels of a Netpbm picture, P4, P5 or P6.
fn pixels(bytes: &[u8]) -> (usize, usize, Vec<[u8; 3]>) {
    let numbers = if bytes.starts_with(b"P4") { 2 } else { 3 };
    let mut at = 2;
    let mut next = || {
        at += bytes[at..]
            .iter()
            .take_while(|byte| byte.is_ascii_whitespace())
            .count();
        let digits = bytes[at..].iter().take_while(|byte| byte.is_ascii_digit());
        let digits = &bytes[at..at + digits.count()];
        at += digits.len();
        std::str::from_utf8(digits)
            .unwrap()
            .parse::<usize>()
            .unwrap()
    };
    let header: Vec<usize> = (0..numbers).map(|_| next()).collect();
    let (width, height, samples) = (header[0], header[1], &bytes[at + 1..]);
    let spread = |sample: &u8| (usize::from(*sample) * 255 / header[2]) as u8;
    let pixels = match bytes[1] {
        b'4' => {
            let bit = |at: usize| {
                samples[at / width * width.div_ceil(8) + at % width / 8] >> (7 - at % width % 8)
            };
            let grey = |at| if bit(at) & 1 == 1 { 0 } else { 255 };
            (0..width * height).map(|at| [grey(at); 3]).collect()
        }
        b'5' => samples.iter().map(|grey| [spread(grey); 3]).collect(),
        _ => {
            let rgb = samples.chunks(3);
            rgb.map(|rgb| [spread(&rgb[0]), spread(&rgb[1]), spread(&rgb[2])])
                .collect()
        }
    };
    (width, height, pixels)
}

/// What the other program makes of a file; nothing where it isn't installed.
fn by_pngtopnm(file: &Path) -> Option<Vec<u8>> {
    let ran = Command::new("pngtopnm").arg(file).output().ok()?;
    assert!(
        ran.status.success(),
        "{}",
        String::from_utf8_lossy(&ran.stderr)
    );
    Some(ran.stdout)
}

#[test]
fn pngtopnm_reads_the_same() {
    let name = format!("multisize-{}-other.png", process::id());
    let place = std::env::temp_dir().join(name);
    for sort in sorts() {
        let file = made(sort);
        fs::write(&place, &file).unwrap();
        let Some(other) = by_pngtopnm(&place) else {
            println!("pngtopnm isn't installed: not compared");
            break;
        };
        let read = png::read(&file).unwrap();
        let grey = read.size().kind.channels() == 1;
        let own = read.samples().chunks(read.size().kind.channels());
        let own = own.map(|p| if grey { [p[0]; 3] } else { [p[0], p[1], p[2]] });
        let (width, height, pixels) = pixels(&other);
        assert_eq!((width, height), (sort.width, sort.height), "{sort:?}");
        assert_eq!(own.collect::<Vec<_>>(), pixels, "{sort:?}");
    }
    let _ = fs::remove_file(&place);
}
