//! Refusals, wrong use, and files that can't be read or written.

use crate::helpers::{Folder, BROKEN, PICTURE};
use multisize::{Energy, LARGEST_COUNT, LARGEST_SIDE};

#[test]
fn a_refusal_names_file_number_and_meaning() {
    let folder = Folder::new("refusal");
    folder.put("broken.multi", BROKEN);
    let line = "multisize: broken.multi: refused (10): \
        a recorded seam isn't connected in the picture left before it\n";
    for command in ["check", "info", "table"] {
        let ran = folder.run(&format!("{command} broken.multi"));
        assert_eq!((ran.status, ran.error.as_str()), (1, line));
        assert!(ran.out.is_empty());
    }
    for command in ["show broken.multi 2", "seams broken.multi"] {
        let ran = folder.run(&format!("{command} -o out.pgm"));
        assert_eq!((ran.status, ran.error.as_str()), (1, line));
    }
    assert_eq!(folder.names(), ["broken.multi"]);
}

#[test]
fn refusals_by_number() {
    let folder = Folder::worked("numbers");
    folder.put("wide.pgm", b"P5\n513 1\n255\n");
    folder.put("none.pgm", b"P5\n0 1\n255\n");
    folder.put("short.pgm", b"P5\n3 2\n255\n.....");
    for (line, number) in [
        ("check picture.pgm", 1),
        ("build picture.multi -o out", 1),
        ("build none.pgm -o out", 2),
        ("build wide.pgm -o out", 3),
        ("build short.pgm -o out", 4),
        ("build picture.pgm -o out --depth 3", 6),
        ("build picture.pgm -o out --growth 2", 6),
        ("show picture.multi 5 -o out", 7),
        ("show picture.multi 0 -o out", 7),
    ] {
        let ran = folder.run(line);
        assert_eq!(ran.status, 1, "{line}");
        assert!(
            ran.error.contains(&format!("refused ({number}): ")),
            "{line}"
        );
    }
}

#[test]
fn a_width_not_offered_tells_those_that_are() {
    let folder = Folder::worked("offered");
    let ran = folder.run("show picture.multi 5 -o out.pgm");
    let line = |file: &str, width: usize, offered: &str| {
        let meaning = format!("refused (7): the width {width} isn't offered");
        format!("multisize: {file}: {meaning}; the file offers the {offered}\n")
    };
    let told = line("picture.multi", 5, "widths 1 to 4");
    assert_eq!((ran.status, ran.error), (1, told));
    folder.served("build picture.pgm --depth 0 -o single.multi");
    let ran = folder.run("show single.multi 2 -o out.pgm");
    let told = line("single.multi", 2, "width 3 alone");
    assert_eq!((ran.status, ran.error), (1, told));
    // Where the map is wrong too, 7 is still the smallest number.
    folder.put("wrong.multi", BROKEN);
    let ran = folder.run("show wrong.multi 5 -o out.pgm");
    assert_eq!(ran.status, 1);
    assert!(ran
        .error
        .starts_with("multisize: wrong.multi: refused (7): "));
}

#[test]
fn standard_input_has_a_name() {
    let ran = Folder::new("named").run_with("check -", b"(multi\n");
    assert_eq!(ran.status, 1);
    assert!(ran
        .error
        .starts_with("multisize: standard input: refused (1): "));
}

#[test]
fn what_stood_there_stays_after_a_refusal() {
    let folder = Folder::worked("stays");
    folder.put("out.pgm", b"before");
    folder.run("show picture.multi 9 -o out.pgm");
    assert_eq!(folder.get("out.pgm"), b"before");
    folder.served("show picture.multi 1 -o out.pgm");
    assert_eq!(folder.get("out.pgm"), b"P5\n1 2\n255\n\x0a\x32");
    assert_eq!(folder.names(), ["out.pgm", "picture.multi", "picture.pgm"]);
}

#[test]
fn files_that_cannot_be_read_or_written() {
    let folder = Folder::worked("unreadable");
    std::fs::create_dir(folder.path("inside")).unwrap();
    for (line, name) in [
        ("check missing.multi", "missing.multi"),
        ("check inside", "inside"),
        ("show picture.multi 2 -o missing/out.pgm", "missing/out.pgm"),
        ("show picture.multi 2 -o inside", "inside"),
        ("show picture.multi 2 -o new/", "new/"),
    ] {
        let ran = folder.run(line);
        assert_eq!(ran.status, 2, "{line}");
        assert!(
            ran.error.starts_with(&format!("multisize: {name}: ")),
            "{line}"
        );
    }
    assert_eq!(folder.names(), ["inside", "picture.multi", "picture.pgm"]);
}

#[cfg(target_os = "linux")]
#[test]
fn links_and_devices_stay_what_they_are() {
    let folder = Folder::worked("links");
    std::os::unix::fs::symlink("real.pgm", folder.path("link.pgm")).unwrap();
    folder.put("real.pgm", b"before");
    folder.served("show picture.multi 1 -o link.pgm");
    assert!(folder.path("link.pgm").is_symlink());
    assert_eq!(folder.get("real.pgm"), b"P5\n1 2\n255\n\x0a\x32");
    let full = folder.run("show picture.multi 1 -o /dev/full");
    assert_eq!(full.status, 2);
    assert!(full.error.starts_with("multisize: /dev/full: "));
}

#[test]
fn wrong_use_is_told() {
    let folder = Folder::worked("usage");
    for (line, text) in [
        ("", "no command is given"),
        ("paint picture.pgm", "there is no command paint"),
        ("help paint", "there is no command paint"),
        ("help build check", "check is too much"),
        ("carve picture.pgm -o a", "the width is missing"),
        ("carve picture.pgm 6o% -o a", "the percentage can't be 6o"),
        ("check", "the file is missing"),
        (
            "check picture.multi picture.multi",
            "picture.multi is too much",
        ),
        ("check picture.multi -o out", "there is no option -o here"),
        ("build picture.pgm", "-o with the file to write is missing"),
        ("build picture.pgm -o", "-o needs a value"),
        ("build picture.pgm -o a -o b", "-o is given twice"),
        ("build picture.pgm -o a --depth two", "--depth can't be two"),
        (
            "build picture.pgm -o a.png",
            "a multi-size file isn't a picture and can't be named a.png",
        ),
        (
            "table picture.multi -o .PNG",
            "a table isn't a picture and can't be named .PNG",
        ),
        ("show picture.multi -o a", "the width is missing"),
        ("show picture.multi +2 -o a", "the width can't be +2"),
    ] {
        folder.misused(line, text);
    }
    assert_eq!(folder.names(), ["picture.multi", "picture.pgm"]);
}

#[test]
fn wrong_use_of_several_widths_and_pictures_is_told() {
    let folder = Folder::worked("several-used");
    for (line, text) in [
        (
            "show picture.multi 1 2 -o a",
            "several widths need %w in the name after -o, where each is put",
        ),
        (
            "show picture.multi 1 2 01 -o a%w",
            "the width 1 is given twice",
        ),
        ("info picture.multi --json=yes", "--json takes no value"),
        ("remove a b -o c --budget 65536", "--budget can't be 65536"),
        (
            "remove - - -o c",
            "only one picture can come from standard input",
        ),
        (
            "remove a --take - --keep - -o c",
            "only one picture can come from standard input",
        ),
        (
            "remove a --keep b -o c",
            "the picture of marks, or --take, is missing",
        ),
        (
            "remove a b --keep b -o c",
            "marks are a picture of 0, 1 and 2, or --take and --keep, not both",
        ),
        ("remove a b c -o d", "one picture of marks is enough"),
    ] {
        folder.misused(line, text);
    }
    assert_eq!(folder.names(), ["picture.multi", "picture.pgm"]);
}

#[test]
fn help_and_version() {
    let folder = Folder::new("help");
    let help = folder.served("--help");
    let commands = [
        "carve", "build", "check", "info", "show", "seams", "table", "remove", "retarget",
    ];
    for command in commands {
        let start = format!("  multisize {command} ");
        assert!(help.contains(&start));
        let part = folder.served(&format!("help {command}"));
        assert!(part.starts_with(&start) && help.contains(&part));
        assert!(part
            .lines()
            .all(|line| line.starts_with(&start) || line.starts_with("      ")));
        assert_eq!(folder.served(&format!("{command} --help")), part);
    }
    assert_eq!(folder.served("help remove").matches("multisize").count(), 2);
    assert_eq!(folder.served("help"), help);
    assert!(help.contains(&format!("each side is 1 to {LARGEST_SIDE}.")));
    assert!(help.contains(&format!("each 0 to {LARGEST_COUNT} and")));
    for energy in Energy::ALL {
        assert!(help.contains(energy.word()));
    }
    assert_eq!(folder.served("--version"), "multisize 0.1.0\n");
}

#[test]
fn two_hyphens_end_the_options() {
    let folder = Folder::new("hyphens");
    folder.put("-p.pgm", PICTURE);
    assert_eq!(
        folder
            .served("build --depth=1 -o - -- -p.pgm")
            .lines()
            .nth(2),
        Some("(range 1 1)")
    );
    assert_eq!(folder.run("build -p.pgm -o -").status, 2);
}
