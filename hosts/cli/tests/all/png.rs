//! Pictures written as PNG.

use crate::decoder::{decoded, picture};
use crate::helpers::{Folder, PICTURE};
use multisize::{netpbm, Kind, Picture, Size};

/// The same picture is written as PNG and as Netpbm by a command.
fn agree(folder: &Folder, command: &str) {
    let told = folder.served(&format!("{command} -o out.png"));
    assert_eq!(folder.served(&format!("{command} -o out.ppm")), told);
    let plain = folder.get("out.ppm");
    let png = folder.get("out.png");
    assert!(png.starts_with(b"\x89PNG"), "{command}");
    assert_eq!(netpbm::read(&plain), Ok(picture(&png)), "{command}");
}

#[test]
fn every_command_that_writes_a_picture_writes_png() {
    let folder = Folder::worked("png");
    folder.put("marks.pgm", b"P5\n3 2\n255\n\x00\x02\x01\x00\x00\x00");
    for width in 1..=4 {
        agree(&folder, &format!("show picture.multi {width}"));
    }
    agree(&folder, "seams picture.multi");
    agree(&folder, "remove picture.pgm marks.pgm");
    agree(&folder, "retarget picture.pgm --columns 1 --rows 1");
}

#[test]
fn the_ending_decides() {
    let folder = Folder::worked("ending");
    for (name, png) in [
        ("a.PNG", true),
        (".png", true),
        ("b.png.ppm", false),
        ("png", false),
    ] {
        folder.served(&format!("show picture.multi 3 -o {name}"));
        assert_eq!(folder.get(name).starts_with(b"\x89PNG"), png, "{name}");
        assert_eq!(folder.get(name) == PICTURE, !png, "{name}");
    }
}

/// A file of depth 0 shows its picture at its width alone.
fn written(folder: &Folder, source: &Picture) {
    folder.put("source.ppm", &netpbm::write(source));
    folder.served("build source.ppm -o file --depth 0");
    let width = source.size().width;
    folder.served(&format!("show file {width} -o out.png"));
    assert_eq!(&picture(&folder.get("out.png")), source);
}

/// Sizes at the limits, and samples of each sort: flat, slopes, noise.
#[test]
fn pictures_of_all_sorts_come_back() {
    let folder = Folder::new("sorts");
    let sides = [
        (1, 1),
        (2, 1),
        (1, 2),
        (1, 512),
        (512, 1),
        (7, 5),
        (130, 90),
    ];
    let mut state = 1u32;
    let mut noise = || {
        state = state.wrapping_mul(1664525).wrapping_add(1013904223);
        (state >> 24) as u8
    };
    for (width, height) in sides {
        for kind in [Kind::Grey, Kind::Rgb] {
            let size = Size {
                width,
                height,
                kind,
            };
            let count = width * height * kind.channels();
            let slopes = (0..count).map(|at| (at / 3 + at / 200 * 7) as u8);
            for samples in [
                vec![200; count],
                slopes.collect(),
                (0..count).map(|_| noise()).collect(),
            ] {
                written(&folder, &Picture::new(size, samples).unwrap());
            }
        }
    }
}

#[test]
fn the_widest_picture_shown_is_written() {
    let folder = Folder::new("widest");
    let samples = (0..512 * 3 * 4).map(|at| (at * at / 50) as u8).collect();
    let wide = Picture::new(Size::rgb(512, 4), samples).unwrap();
    folder.put("wide.ppm", &netpbm::write(&wide));
    folder.served("build wide.ppm -o wide.multi");
    folder.served("show wide.multi 768 -o out.png");
    folder.served("show wide.multi 768 -o out.ppm");
    let (size, samples) = decoded(&folder.get("out.png"));
    assert_eq!(size, Size::rgb(768, 4));
    assert_eq!(
        [b"P6\n768 4\n255\n", samples.as_slice()].concat(),
        folder.get("out.ppm")
    );
}

#[test]
fn standard_output_is_netpbm_and_a_refusal_leaves_no_png() {
    let folder = Folder::worked("plain");
    let ran = folder.run("show picture.multi 3 -o -");
    assert_eq!((ran.status, ran.out.as_slice()), (0, PICTURE));
    assert_eq!(folder.run("show picture.multi 9 -o out.png").status, 1);
    assert_eq!(folder.names(), ["picture.multi", "picture.pgm"]);
}
