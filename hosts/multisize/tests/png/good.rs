//! Pictures that are read, and pictures that aren't read by their sort.

use crate::maker::{head, made, part, sorts, stream, Sort};
use multisize::{png, Kind, Picture, Refusal, Size};

#[test]
fn every_sort_is_read() {
    for sort in sorts() {
        let kind = if sort.colour == 0 {
            Kind::Grey
        } else {
            Kind::Rgb
        };
        let size = Size {
            width: sort.width,
            height: sort.height,
            kind,
        };
        let picture = Picture::new(size, sort.samples()).unwrap();
        assert_eq!(png::read(&made(sort)), Ok(picture), "{sort:?}");
    }
}

#[test]
fn what_is_written_is_read() {
    let mut state = 1u32;
    let mut noise = || {
        state = state.wrapping_mul(1664525).wrapping_add(1013904223);
        (state >> 24) as u8
    };
    for size in [
        Size::grey(1, 1),
        Size::rgb(512, 3),
        Size::grey(7, 512),
        Size::rgb(90, 60),
    ] {
        let count = size.width * size.height * size.kind.channels();
        let slopes = (0..count).map(|at| (at / 3 + at / 200 * 7) as u8);
        for samples in [
            vec![200; count],
            slopes.collect(),
            (0..count).map(|_| noise()).collect(),
        ] {
            let picture = Picture::new(size, samples).unwrap();
            assert_eq!(png::read(&png::write(&picture)), Ok(picture));
        }
    }
}

/// Some tools leave bytes after the last part.
#[test]
fn what_follows_the_last_part_is_left() {
    let sort = sorts()[0];
    let file = [made(sort).as_slice(), b"more"].concat();
    assert!(png::read(&file).is_ok());
}

fn of(depth: usize, colour: u8, width: usize) -> Sort {
    Sort {
        width,
        height: 1,
        depth,
        colour,
        interlaced: false,
    }
}

/// A file whose head says this, with a part that may follow it.
fn headed(sort: Sort, between: &[u8], lines: &[u8]) -> Vec<u8> {
    let file = [
        png::SIGNATURE.as_slice(),
        &part(b"IHDR", &head(sort)),
        between,
        &part(b"IDAT", &stream(lines)),
        &part(b"IEND", b""),
    ];
    file.concat()
}

#[test]
fn what_is_not_read_is_named() {
    for (depth, colour, name) in [
        (16, 0, "16 bits a sample"),
        (16, 2, "16 bits a sample"),
        (8, 4, "alpha"),
        (8, 6, "alpha"),
        (16, 6, "alpha"),
    ] {
        let error = png::read(&headed(of(depth, colour, 1), b"", &[0; 9])).unwrap_err();
        assert_eq!(error, png::Error::Unread(name));
        assert_eq!(error.refusal(), Refusal::Form);
        assert_eq!(error.to_string(), format!("a PNG with {name} isn't read"));
    }
    let error = png::read(&headed(of(8, 0, 1), &part(b"tRNS", &[0, 7]), &[0; 2]));
    assert_eq!(error, Err(png::Error::Unread("transparent colours")));
}

#[test]
fn sides_are_told_as_a_sentence() {
    let error = png::read(&headed(of(8, 2, 4000), b"", &[0; 9])).unwrap_err();
    let text = "the PNG is 4000 by 1, and each side must be 1 to 512";
    assert_eq!(
        (error.to_string(), format!("{error:?}")),
        (text.into(), text.into())
    );
    assert_eq!(error.refusal(), Refusal::Large);
    let error = png::read(&headed(of(8, 2, 0), b"", &[0; 9])).unwrap_err();
    assert_eq!(error.refusal(), Refusal::Empty);
}
