//! Files in spaces that just suffice and in spaces that are too short, and
//! files that are damaged.

use crate::files::{build_in, bytes_of, check_in, drawn, file_of, read_in, show_in};
use crate::files::{with_all_widths, WORK};
use crate::{listed, Numbers};
use reference::{check, read, show, FileInfo, Kind, Method};

/// The example of the specification, and two generated pictures, with short
/// spaces and damaged files.
pub fn trials(method: Method, numbers: &mut Numbers) {
    let example = [10, 10, 40, 10, 50, 40];
    trial(&example, with_all_widths(3, 2, Kind::Grey, method));
    for (width, height, kind) in [(4, 2, Kind::Grey), (3, 2, Kind::Rgb)] {
        let info = with_all_widths(width, height, kind, method);
        trial(&drawn(info.size, numbers), info);
    }
}

fn trial(picture: &[u8], info: FileInfo) {
    let file = file_of(picture, info);
    rooms(picture, info, &file);
    damages(&file);
}

/// Each operation in spaces that just suffice, and with one space after the
/// other one byte short.
fn rooms(picture: &[u8], info: FileInfo, file: &[u8]) {
    let size = info.size;
    let pixels = size.height * size.width;
    let (length, bytes, room) = (file.len(), picture.len(), 32 * pixels);
    build_in(picture, info, length, room);
    build_in(picture, info, length - 1, room);
    build_in(picture, info, length, room - 1);
    check_in(file, room);
    check_in(file, room - 1);
    read_in(file, bytes, pixels, room);
    read_in(file, bytes - 1, pixels, room);
    read_in(file, bytes, pixels - 1, room);
    read_in(file, bytes, pixels, room - 1);
    let widest = size.width + info.growth;
    let shown = bytes_of(size, widest);
    show_in(file, widest, shown, room);
    show_in(file, widest, shown - 1, room);
    show_in(file, widest, shown, room - 1);
    // The next width isn't offered.
    show_in(file, widest + 1, shown - 1, room - 1);
}

/// Lines of numbers: for every front of the file and for the file with a byte
/// 0 after it; for each byte changed to one of five; and for each digit
/// exchanged with each one after it.
fn damages(file: &[u8]) {
    let mut longer = file.to_vec();
    longer.push(0);
    number_line((0..=longer.len()).map(|n| longer[..n].to_vec()));
    for byte in *b"02) \n" {
        number_line((0..file.len()).map(|place| changed(file, place, byte)));
    }
    let places: Vec<usize> = (0..file.len())
        .filter(|place| file[*place].is_ascii_digit())
        .collect();
    for (i, place) in places.iter().enumerate() {
        let others = &places[i + 1..];
        number_line(others.iter().map(|other| exchanged(file, *place, *other)));
    }
}

fn changed(file: &[u8], place: usize, byte: u8) -> Vec<u8> {
    let mut copy = file.to_vec();
    copy[place] = byte;
    copy
}

fn exchanged(file: &[u8], place: usize, other: usize) -> Vec<u8> {
    let mut copy = file.to_vec();
    copy.swap(place, other);
    copy
}

fn number_line(files: impl Iterator<Item = Vec<u8>>) {
    let numbers: Vec<String> = files.map(|file| numbers_of(&file)).collect();
    println!("{}", numbers.concat());
}

/// The number that checking gives, and those of reading and of showing at
/// width 1 where they are others.
fn numbers_of(file: &[u8]) -> String {
    let (mut picture, mut map, mut work) = ([7; 73], [9; 73], [1; WORK]);
    let checked = check(file, &mut work).err().unwrap_or(0);
    let read = read(file, &mut picture, &mut map, &mut work)
        .err()
        .unwrap_or(0);
    let shown = show(file, 1, &mut picture, &mut work).err().unwrap_or(0);
    let mut text = listed(&[checked]);
    for (name, number) in [("read", read), ("show", shown)] {
        if number != checked {
            text += &format!(" {name} {number}");
        }
    }
    text
}
