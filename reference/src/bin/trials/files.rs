//! Multi-size files of generated pictures: built, checked, read, and shown at
//! every width.

use crate::{listed, Numbers};
use reference::{build, check, energy_word, read, show, FileInfo, Kind, Method, Refusal, Size};

/// Output space for the text of every file.
const TEXT: usize = 512;

/// Work space for every picture.
pub const WORK: usize = 2304;

/// Files of pictures of every width to 5 and height to 3, of both kinds, that
/// offer all widths; then two that offer fewer.
pub fn trials(method: Method, numbers: &mut Numbers) {
    for height in 1..=3 {
        for width in 1..=5 {
            for kind in [Kind::Grey, Kind::Rgb] {
                let info = with_all_widths(width, height, kind, method);
                file_of(&drawn(info.size, numbers), info);
            }
        }
    }
    for (width, height, kind, depth, growth) in [(5, 2, Kind::Grey, 2, 1), (4, 3, Kind::Rgb, 1, 0)]
    {
        let size = Size {
            width,
            height,
            kind,
        };
        let info = FileInfo {
            size,
            method,
            depth,
            growth,
        };
        file_of(&drawn(size, numbers), info);
    }
}

pub fn with_all_widths(width: usize, height: usize, kind: Kind, method: Method) -> FileInfo {
    FileInfo {
        size: Size {
            width,
            height,
            kind,
        },
        method,
        depth: width - 1,
        growth: width / 2,
    }
}

/// A generated picture, of which 72 bytes are made.
pub fn drawn(size: Size, numbers: &mut Numbers) -> Vec<u8> {
    let mut space = [0; 72].map(|_| numbers.sample()).to_vec();
    space.truncate(bytes_of(size, size.width));
    space
}

pub fn bytes_of(size: Size, width: usize) -> usize {
    size.height * width * size.kind.channels()
}

/// Lines for the building of a file, its text, and what checking, reading and
/// showing give.
pub fn file_of(picture: &[u8], info: FileInfo) -> Vec<u8> {
    let file = build_in(picture, info, TEXT, WORK);
    print!("{}", String::from_utf8_lossy(&file));
    check_in(&file, WORK);
    let size = info.size;
    let pixels = size.height * size.width;
    read_in(&file, picture.len() + 1, pixels + 1, WORK);
    for wanted in 0..=size.width + info.growth + 1 {
        show_in(&file, wanted, bytes_of(size, wanted) + 1, WORK);
    }
    file
}

/// The number given and the file's length, and how many bytes of each space
/// aren't 0.
pub fn build_in(picture: &[u8], info: FileInfo, out: usize, work: usize) -> Vec<u8> {
    let (mut out, mut work) = (vec![0; out], vec![1; work]);
    let FileInfo {
        size,
        method,
        depth,
        growth,
    } = info;
    let built = build(picture, size, method, depth, growth, &mut out, &mut work);
    let given = match built {
        Ok(length) => format!("0 {length}"),
        Err(number) => number.to_string(),
    };
    println!("build {given} {} {}", used(&out), used(&work));
    out.truncate(built.unwrap_or(0));
    out
}

/// The number given, size and range, and how many bytes of the work space
/// aren't 0.
pub fn check_in(file: &[u8], work: usize) {
    let mut work = vec![1; work];
    let checked = check(file, &mut work);
    println!("check {} {}", checked_text(checked), used(&work));
}

/// The same, and the spaces of picture and map.
pub fn read_in(file: &[u8], bytes: usize, pixels: usize, work: usize) {
    let (mut picture, mut map, mut work) = (vec![7; bytes], vec![9; pixels], vec![1; work]);
    let checked = read(file, &mut picture, &mut map, &mut work);
    let (given, left) = (checked_text(checked), used(&work));
    println!(
        "read {given} {left} |{} |{}",
        listed(&picture),
        listed(&map)
    );
}

/// The width, the number given, the size shown, how many bytes of the work
/// space aren't 0, and the output space.
pub fn show_in(file: &[u8], wanted: usize, out: usize, work: usize) {
    let (mut out, mut work) = (vec![7; out], vec![1; work]);
    let given = match show(file, wanted, &mut out, &mut work) {
        Ok(size) => format!("0 {}", size_text(size)),
        Err(number) => number.to_string(),
    };
    println!("show {wanted} {given} {} |{}", used(&work), listed(&out));
}

fn checked_text(checked: Result<FileInfo, Refusal>) -> String {
    match checked {
        Ok(info) => {
            let (size, energy) = (size_text(info.size), energy_word(info.method.energy));
            format!("0 {size} {energy} {} {}", info.depth, info.growth)
        }
        Err(number) => number.to_string(),
    }
}

/// Width, height, and samples a pixel.
fn size_text(size: Size) -> String {
    format!("{} {} {}", size.width, size.height, size.kind.channels())
}

/// How many bytes aren't 0.
fn used(space: &[u8]) -> usize {
    space.iter().filter(|byte| **byte != 0).count()
}
