//! Pictures carved in one step, read from PNG and Netpbm.

use crate::helpers::{Folder, BROKEN, PICTURE};
use multisize::{netpbm, png, Picture, Size};

/// A picture with slopes in both directions and some noise.
fn slopes(width: usize, height: usize) -> Picture {
    let sample = |at: usize| ((at % width) * 5 + (at / width) * 3 + at * at % 23) as u8;
    let samples = (0..width * height * 3).map(|at| sample(at / 3)).collect();
    Picture::new(Size::rgb(width, height), samples).unwrap()
}

#[test]
fn carving_is_building_and_showing() {
    let folder = Folder::new("carve");
    folder.put("a.png", &png::write(&slopes(20, 11)));
    folder.put("a.ppm", &netpbm::write(&slopes(20, 11)));
    folder.served("build a.ppm -o a.multi");
    for width in 1..=30 {
        folder.served(&format!("show a.multi {width} -o shown.ppm"));
        for name in ["a.png", "a.ppm"] {
            assert_eq!(
                folder.served(&format!("carve {name} {width} -o carved.ppm")),
                ""
            );
            assert_eq!(folder.get("carved.ppm"), folder.get("shown.ppm"), "{width}");
        }
    }
}

#[test]
fn a_width_may_be_a_percentage() {
    let folder = Folder::worked("percent");
    for (wanted, width) in [("100%", 3), ("67%", 2), ("50%", 2), ("17%", 1), ("133%", 4)] {
        folder.served(&format!("carve picture.pgm {wanted} -o carved.pgm"));
        folder.served(&format!("show picture.multi {width} -o shown.pgm"));
        assert_eq!(
            folder.get("carved.pgm"),
            folder.get("shown.pgm"),
            "{wanted}"
        );
    }
    let ran = folder.run_with("carve - 2 -o -", PICTURE);
    assert_eq!(
        (ran.status, ran.out.as_slice()),
        (0, &b"P5\n2 2\n255\n\x0a\x28\x32\x28"[..])
    );
}

#[test]
fn a_width_too_far_is_told_in_numbers() {
    let folder = Folder::worked("far");
    for (wanted, width) in [("0", 0), ("5", 5), ("200%", 6), ("16%", 0)] {
        let ran = folder.run(&format!("carve picture.pgm {wanted} -o out.pgm"));
        let told =
            format!("multisize: picture.pgm: refused (7): the width {width} can't be carved");
        let hint = "the picture is 3 wide, and is carved to 1 to 4 columns";
        assert_eq!((ran.status, ran.error), (1, format!("{told}; {hint}\n")));
    }
}

/// A file at several widths.
#[test]
fn several_widths_are_shown_at_once() {
    let folder = Folder::worked("several");
    assert_eq!(folder.served("show picture.multi 1 2 4 -o f-%w.pgm"), "");
    for width in [1, 2, 4] {
        folder.served(&format!("show picture.multi {width} -o one.pgm"));
        assert_eq!(folder.get(&format!("f-{width}.pgm")), folder.get("one.pgm"));
    }
    let ran = folder.run("show picture.multi 1 3 5 -o g-%w.png");
    assert_eq!(ran.status, 1);
    let told = "refused (7): the width 5 isn't offered; the file offers the widths 1 to 4\n";
    assert!(ran.error.ends_with(told));
    let names = [
        "f-1.pgm",
        "f-2.pgm",
        "f-4.pgm",
        "one.pgm",
        "picture.multi",
        "picture.pgm",
    ];
    assert_eq!(folder.names(), names);
}

/// Each of them is what showing that width alone gives, in whatever order they are
/// asked.
#[test]
fn widths_shown_together_are_those_shown_alone() {
    let folder = Folder::new("together");
    folder.put("a.ppm", &netpbm::write(&slopes(20, 11)));
    folder.served("build a.ppm -o a.multi");
    let widths: Vec<String> = (1..=30).map(|at| (at * 7 % 31).to_string()).collect();
    folder.served(&format!("show a.multi {} -o all-%w.ppm", widths.join(" ")));
    for width in 1..=30 {
        folder.served(&format!("show a.multi {width} -o one.ppm"));
        assert_eq!(
            folder.get(&format!("all-{width}.ppm")),
            folder.get("one.ppm")
        );
    }
}

#[test]
fn a_refused_file_is_shown_at_no_width() {
    let folder = Folder::worked("refused-all");
    folder.put("wrong.multi", BROKEN);
    let ran = folder.run("show wrong.multi 1 2 -o f-%w.pgm");
    assert_eq!(ran.status, 1);
    assert!(ran
        .error
        .starts_with("multisize: wrong.multi: refused (10): "));
    let names = ["picture.multi", "picture.pgm", "wrong.multi"];
    assert_eq!(folder.names(), names);
}

#[test]
fn info_as_json() {
    let json = "{\"width\": 3, \"height\": 2, \"kind\": \"grey\", \"depth\": 2, \"growth\": 1, \
        \"energy\": \"edge\", \"narrowest\": 1, \"widest\": 4}\n";
    let folder = Folder::worked("json");
    assert_eq!(folder.served("info picture.multi --json"), json);
}

#[test]
fn what_is_painted_is_taken_and_kept() {
    let folder = Folder::worked("painted");
    folder.put("marks.pgm", b"P5\n3 2\n255\n\x00\x02\x01\x00\x00\x00");
    let ended = folder.served("remove picture.pgm marks.pgm -o by-marks.pgm");
    // Any colour but black marks; where both do, the pixel is kept.
    let take = vec![0, 0, 0, 0, 0, 9, 255, 255, 255, 0, 0, 0, 0, 0, 0, 0, 0, 0];
    let take = Picture::new(Size::rgb(3, 2), take).unwrap();
    folder.put("take.png", &png::write(&take));
    folder.put("keep.pgm", b"P5\n3 2\n255\n\x00\x00\x80\x00\x00\x00");
    let line = "remove picture.pgm --take take.png --keep keep.pgm -o painted.pgm";
    assert_eq!(folder.served(line), ended);
    assert_eq!(folder.get("painted.pgm"), folder.get("by-marks.pgm"));
    let ended = folder.served("remove picture.pgm --take=take.png -o painted.pgm");
    assert_eq!(ended, "done, 2 seams cut\n");
    folder.put("small.pgm", b"P5\n2 2\n255\n\x00\x00\x80\x00");
    for (line, name) in [
        ("remove picture.pgm --take small.pgm", "small.pgm"),
        (
            "remove picture.pgm --take take.png --keep small.pgm",
            "small.pgm",
        ),
    ] {
        let ran = folder.run(&format!("{line} -o none.pgm"));
        let sizes = "the picture is 3 by 2, and its marks are 2 by 2";
        let told = format!("multisize: {name}: refused (4): {sizes}\n");
        assert_eq!((ran.status, ran.error), (1, told));
    }
}
