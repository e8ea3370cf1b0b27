//! Nothing is lost: what is read is never written over, links stay, and what a killed
//! run left behind is in nobody's way.

use crate::helpers::{Folder, FILE, PICTURE};
use multisize::LONGEST_FILE;
use std::fs;
use std::io::Write;
use std::os::unix::fs::symlink;
use std::process::{Command, Stdio};

const NARROW: &[u8] = b"P5\n1 2\n255\n\x0a\x32";

/// The number of the process stays the same where the shell becomes the program.
#[test]
fn what_a_killed_run_left_is_passed() {
    let folder = Folder::worked("killed");
    let program = env!("CARGO_BIN_EXE_multisize");
    let left = "touch .multisize-$$-0.tmp .multisize-$$-1.tmp";
    let line = format!("{left}; exec {program} show picture.multi 1 -o out.pgm");
    let ran = Command::new("sh")
        .args(["-c", &line])
        .current_dir(folder.path(""))
        .output()
        .unwrap();
    assert_eq!((ran.status.code(), ran.stderr), (Some(0), vec![]));
    assert_eq!(folder.get("out.pgm"), NARROW);
    let names = folder.names();
    assert_eq!(
        names.iter().filter(|name| name.ends_with(".tmp")).count(),
        2
    );
}

#[test]
fn a_link_to_no_file_is_followed() {
    let folder = Folder::worked("dangling");
    fs::create_dir(folder.path("inside")).unwrap();
    symlink("inside/second", folder.path("first")).unwrap();
    symlink("../real.pgm", folder.path("inside/second")).unwrap();
    folder.served("show picture.multi 1 -o first");
    assert!(folder.path("first").is_symlink() && folder.path("inside/second").is_symlink());
    assert_eq!(folder.get("real.pgm"), NARROW);
}

#[test]
fn a_link_that_leads_nowhere_stays() {
    let folder = Folder::worked("nowhere");
    symlink("missing/real.pgm", folder.path("far")).unwrap();
    symlink("round", folder.path("round")).unwrap();
    for name in ["far", "round"] {
        let ran = folder.run(&format!("show picture.multi 1 -o {name}"));
        assert_eq!(ran.status, 2, "{name}");
        assert!(ran.error.starts_with(&format!("multisize: {name}: ")));
        assert!(folder.path(name).is_symlink());
    }
    let names = ["far", "picture.multi", "picture.pgm", "round"];
    assert_eq!(folder.names(), names);
}

#[test]
fn what_is_read_is_not_written() {
    let folder = Folder::worked("over");
    symlink("picture.pgm", folder.path("link.pgm")).unwrap();
    fs::hard_link(folder.path("picture.pgm"), folder.path("hard.pgm")).unwrap();
    symlink("picture.multi", folder.path("link")).unwrap();
    folder.put("marks.pgm", b"P5\n3 2\n255\n\x00\x02\x01\x00\x00\x00");
    for (line, name) in [
        ("carve picture.pgm 2 -o picture.pgm", "picture.pgm"),
        ("carve picture.pgm 2 -o ./picture.pgm", "./picture.pgm"),
        ("carve picture.pgm 2 -o link.pgm", "link.pgm"),
        ("carve picture.pgm 2 -o hard.pgm", "hard.pgm"),
        ("show link 2 -o link", "link"),
        ("seams link -o link", "link"),
        ("table picture.multi -o link", "link"),
        ("build link -o link", "link"),
        ("remove picture.pgm marks.pgm -o marks.pgm", "marks.pgm"),
        (
            "remove picture.pgm --take marks.pgm -o marks.pgm",
            "marks.pgm",
        ),
        (
            "remove marks.pgm --take a --keep picture.pgm -o picture.pgm",
            "picture.pgm",
        ),
        ("retarget picture.pgm -o picture.pgm", "picture.pgm"),
    ] {
        let ran = folder.run(line);
        let told = format!("{name} is read and can't be written too");
        let told = format!("multisize: {told} (multisize --help says more)\n");
        assert_eq!((ran.status, ran.error), (2, told), "{line}");
    }
    assert_eq!(folder.get("picture.pgm"), PICTURE);
    assert_eq!(folder.get("picture.multi"), FILE);
}

/// No name says another format than is written.
#[test]
fn endings_of_other_formats_are_refused() {
    let folder = Folder::worked("endings");
    for name in [
        "a.jpg", "a.JPEG", "a.gif", "a.webp", ".bmp", "a.pbm", "a.multi", "a.csv",
    ] {
        for line in [
            format!("carve picture.pgm 2 -o {name}"),
            format!("show picture.multi 2 -o {name}"),
            format!("retarget picture.pgm -o {name}"),
        ] {
            let ran = folder.run(&line);
            let told = format!("multisize: a picture can't be named {name}: ");
            assert_eq!(ran.status, 2, "{line}");
            assert!(ran.error.starts_with(&told), "{line}: {}", ran.error);
        }
    }
    for name in ["a.png", "a.ppm", "a.jpg"] {
        for line in [
            format!("build picture.pgm -o {name}"),
            format!("table picture.multi -o {name}"),
        ] {
            let ran = folder.run(&line);
            assert_eq!(ran.status, 2, "{line}");
            assert!(ran.error.contains("isn't a picture and can't be named"));
        }
    }
    assert_eq!(folder.names(), ["picture.multi", "picture.pgm"]);
}

/// Zeros without end are read no farther than anything is served.
#[test]
fn reading_ends() {
    let folder = Folder::worked("endless");
    let long = format!("refused: it is over {LONGEST_FILE} bytes, longer than any file");
    let ran = folder.run("check /dev/zero");
    assert_eq!(ran.status, 1);
    assert!(ran.error.contains(&long), "{}", ran.error);
    let ran = folder.run("carve /dev/zero 2 -o out.pgm");
    assert_eq!(ran.status, 1);
    assert!(ran
        .error
        .starts_with("multisize: /dev/zero: refused (1): it is no picture"));
    let samples = vec![0; LONGEST_FILE];
    folder.put("long.pgm", &[PICTURE, &samples].concat());
    let ran = folder.run("carve long.pgm 2 -o out.pgm");
    let told = "a picture of 3 by 2 grey has 6 samples, and here are over ";
    assert!(ran.error.contains(told), "{}", ran.error);
}

/// The reader is gone before the program has read its input, so before it writes.
#[test]
fn a_closed_pipe_ends_quietly() {
    for line in ["show - 3 -o -", "table -", "info -", "check -"] {
        let mut child = Command::new(env!("CARGO_BIN_EXE_multisize"))
            .args(line.split_whitespace())
            .stdin(Stdio::piped())
            .stdout(Stdio::piped())
            .stderr(Stdio::piped())
            .spawn()
            .unwrap();
        drop(child.stdout.take());
        child.stdin.take().unwrap().write_all(FILE).unwrap();
        let ran = child.wait_with_output().unwrap();
        assert_eq!((ran.status.code(), ran.stderr), (Some(0), vec![]), "{line}");
    }
}
