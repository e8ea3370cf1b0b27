//! Pictures carved by each energy, and files that name one.

use crate::helpers::{Folder, FILE, FLAT, FORWARD};
use multisize::{netpbm, Picture, Size};

/// With the worked picture and its file by each energy.
fn worked(test: &str) -> Folder {
    let folder = Folder::worked(test);
    folder.put("flat.multi", FLAT);
    folder.put("forward.multi", FORWARD);
    folder
}

#[test]
fn build_writes_the_energy_that_is_named() {
    let folder = worked("energy-build");
    for (options, file) in [
        ("", FILE),
        ("--energy edge", FILE),
        ("--energy flat", FLAT),
        ("--energy=flat", FLAT),
        ("--energy forward", FORWARD),
        ("--energy=forward", FORWARD),
    ] {
        folder.served(&format!("build picture.pgm {options} -o built.multi"));
        assert_eq!(folder.get("built.multi"), file, "{options}");
    }
}

#[test]
fn info_says_the_energy() {
    let folder = worked("energy-info");
    for (name, energy) in [
        ("picture.multi", "edge"),
        ("flat.multi", "flat"),
        ("forward.multi", "forward"),
    ] {
        assert_eq!(folder.served(&format!("check {name}")), "accepted\n");
        let info = folder.served(&format!("info {name}"));
        assert!(info.contains(&format!("\nenergy {energy}\n")));
        let json = folder.served(&format!("info {name} --json"));
        assert!(json.contains(&format!("\"energy\": \"{energy}\"")));
    }
}

#[test]
fn a_file_is_shown_and_listed_by_its_energy() {
    let folder = worked("energy-show");
    for (width, samples) in [
        (1, &b"P5\n1 2\n255\n\x0a\x0a"[..]),
        (2, b"P5\n2 2\n255\n\x0a\x0a\x0a\x32"),
        (4, b"P5\n4 2\n255\n\x0a\x0a\x19\x28\x0a\x32\x2d\x28"),
    ] {
        folder.served(&format!("show flat.multi {width} -o shown.pgm"));
        assert_eq!(folder.get("shown.pgm"), samples);
        folder.served(&format!("carve picture.pgm {width} --energy flat -o a.pgm"));
        assert_eq!(folder.get("a.pgm"), samples);
    }
    let table = folder.served("table flat.multi --long");
    let seams = "original\n1,0,0,2,2\n1,0,1,2,2\n2,0,0,0,0\n2,0,1,1,1\n";
    assert!(table.ends_with(seams));
}

#[test]
fn a_file_by_forward_is_shown_and_listed() {
    let folder = worked("energy-forward");
    for (width, samples) in [
        (1, &b"P5\n1 2\n255\n\x28\x28"[..]),
        (2, b"P5\n2 2\n255\n\x0a\x28\x0a\x28"),
        (4, b"P5\n4 2\n255\n\x0a\x0a\x0a\x28\x0a\x32\x2d\x28"),
    ] {
        folder.served(&format!("show forward.multi {width} -o shown.pgm"));
        assert_eq!(folder.get("shown.pgm"), samples);
        folder.served(&format!(
            "carve picture.pgm {width} --energy forward -o a.pgm"
        ));
        assert_eq!(folder.get("a.pgm"), samples);
    }
    let table = folder.served("table forward.multi --long");
    let seams = "original\n1,30,0,0,0\n1,30,1,1,1\n2,60,0,0,1\n2,60,1,0,0\n";
    assert!(table.ends_with(seams), "{table}");
}

#[test]
fn carve_remove_and_retarget_take_an_energy() {
    let folder = worked("energy-pictures");
    folder.put("marks.pgm", b"P5\n3 2\n255\n\x02\x00\x00\x00\x00\x00");
    for (line, edge, flat, forward) in [
        (
            "carve picture.pgm 2",
            &b"\x0a\x28\x32\x28"[..],
            &b"\x0a\x0a\x0a\x32"[..],
            &b"\x0a\x28\x0a\x28"[..],
        ),
        (
            "remove picture.pgm marks.pgm",
            b"\x0a\x28\x32\x28",
            b"\x0a\x28\x0a\x28",
            b"\x0a\x28\x0a\x28",
        ),
        (
            "retarget picture.pgm --columns 1",
            b"\x0a\x28\x32\x28",
            b"\x0a\x0a\x0a\x32",
            b"\x0a\x28\x0a\x28",
        ),
    ] {
        for (options, samples) in [
            ("", edge),
            ("--energy edge", edge),
            ("--energy flat", flat),
            ("--energy forward", forward),
        ] {
            folder.served(&format!("{line} {options} -o left.pgm"));
            let left = folder.get("left.pgm");
            assert_eq!(
                left.strip_prefix(b"P5\n2 2\n255\n"),
                Some(samples),
                "{line}"
            );
        }
    }
    for (energy, total) in [("flat", "total 10\n"), ("forward", "total 40\n")] {
        let line = format!("retarget picture.pgm --rows 1 --energy {energy} -o left.pgm");
        assert_eq!(folder.served(&line), total);
    }
}

/// Each width carved is the one that the file built by the same energy shows.
#[test]
fn carving_is_building_and_showing() {
    let folder = Folder::new("energy-carve");
    let sample = |at: usize| ((at % 20) * 5 + (at / 20) * 3 + at * at % 23) as u8;
    let samples = (0..20 * 11 * 3).map(|at| sample(at / 3)).collect();
    let picture = Picture::new(Size::rgb(20, 11), samples).unwrap();
    folder.put("a.ppm", &netpbm::write(&picture));
    folder.served("build a.ppm -o edge.multi");
    for energy in ["flat", "forward"] {
        folder.served(&format!("build a.ppm --energy {energy} -o a.multi"));
        assert_ne!(folder.get("a.multi"), folder.get("edge.multi"));
        for width in 1..=30 {
            folder.served(&format!("show a.multi {width} -o shown.ppm"));
            folder.served(&format!(
                "carve a.ppm {width} --energy {energy} -o carved.ppm"
            ));
            let [carved, shown] = ["carved.ppm", "shown.ppm"].map(|name| folder.get(name));
            assert_eq!(carved, shown, "{energy}, {width}");
        }
    }
}

#[test]
fn a_wrong_energy_is_told() {
    let folder = Folder::worked("energy-wrong");
    for line in [
        "carve picture.pgm 2 -o out.pgm",
        "build picture.pgm -o out.multi",
        "remove picture.pgm picture.pgm -o out.pgm",
        "retarget picture.pgm -o out.pgm",
    ] {
        for word in ["steep", "Flat", "0", "forwards"] {
            let text = format!("--energy can be edge, flat or forward, not {word}");
            folder.misused(&format!("{line} --energy {word}"), &text);
        }
        folder.misused(&format!("{line} --energy"), "--energy needs a value");
        let twice = format!("{line} --energy flat --energy=edge");
        folder.misused(&twice, "--energy is given twice");
    }
    assert_eq!(folder.names(), ["picture.multi", "picture.pgm"]);
}

/// A file names its own.
#[test]
fn an_energy_is_no_option_for_a_file() {
    let folder = Folder::worked("energy-file");
    for line in [
        "check picture.multi",
        "info picture.multi",
        "show picture.multi 2 -o out.pgm",
        "seams picture.multi -o out.pgm",
        "table picture.multi",
        "page picture.multi -o out.html",
    ] {
        let line = format!("{line} --energy edge");
        folder.misused(&line, "there is no option --energy here");
    }
    assert_eq!(folder.names(), ["picture.multi", "picture.pgm"]);
}

#[test]
fn a_map_of_another_energy_is_refused() {
    let folder = Folder::new("energy-other");
    let text = |file: &[u8]| String::from_utf8(file.to_vec()).unwrap();
    for (name, file, own, other) in [
        ("a.multi", FILE, "edge", "flat"),
        ("b.multi", FLAT, "flat", "edge"),
        ("c.multi", FORWARD, "forward", "edge"),
        ("d.multi", FORWARD, "forward", "flat"),
        ("e.multi", FILE, "edge", "forward"),
    ] {
        folder.put(name, text(file).replace(own, other).as_bytes());
        let ran = folder.run(&format!("check {name}"));
        let told = "refused (11): a recorded seam isn't the one found";
        assert_eq!(
            (ran.status, ran.error),
            (1, format!("multisize: {name}: {told}\n"))
        );
    }
}

/// Refused by 1, with what follows.
fn refused_form(folder: &Folder, hint: &str) {
    let told = format!("multisize: a.multi: refused (1): the text breaks its form{hint}\n");
    for line in [
        "check a.multi",
        "info a.multi",
        "show a.multi 2 -o out.pgm",
        "show a.multi 1 2 -o out-%w.pgm",
        "seams a.multi -o out.pgm",
        "table a.multi",
        "page a.multi -o out.html",
    ] {
        let ran = folder.run(line);
        assert_eq!((ran.status, ran.error), (1, told.clone()), "{line}");
    }
    assert_eq!(folder.names(), ["a.multi"]);
}

#[test]
fn a_file_without_its_energy_is_told_what_to_do() {
    let folder = Folder::new("energy-missing");
    let text = String::from_utf8(FLAT.to_vec()).unwrap();
    let older = text.replace("(energy flat)\n", "");
    folder.put("a.multi", older.as_bytes());
    refused_form(
        &folder,
        "; its energy line is missing: put (energy edge), (energy flat) or (energy forward) \
         after its range line, whichever it is accepted with (docs/FILE.md says more)",
    );
    // With the line of the energy that made it, it is the file that building gives.
    let with_line = older.replace("(range 2 1)", "(range 2 1)\n(energy flat)");
    folder.put("a.multi", with_line.as_bytes());
    assert_eq!(folder.served("check a.multi"), "accepted\n");
    assert_eq!(folder.get("a.multi"), FLAT);
}

#[test]
fn an_energy_line_that_names_none_is_told() {
    let folder = Folder::new("energy-none");
    let text = String::from_utf8(FILE.to_vec()).unwrap();
    for word in ["steep", "Edge", "edge flat", "forwards", ""] {
        folder.put(
            "a.multi",
            text.replace("energy edge", &format!("energy {word}"))
                .as_bytes(),
        );
        refused_form(
            &folder,
            "; its energy line isn't (energy edge), (energy flat) or (energy forward)",
        );
    }
    // The form breaks elsewhere.
    for (from, to) in [
        ("\n)\n", "\n"),
        ("(row 10", "(row 010"),
        ("\n", "\r\n"),
        ("(multi\n", ""),
    ] {
        folder.put("a.multi", text.replace(from, to).as_bytes());
        refused_form(&folder, "");
    }
}
