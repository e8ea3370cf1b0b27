//! Files built, checked, shown, drawn and listed.

use crate::helpers::{Folder, FILE, PICTURE};
use multisize::{netpbm, Picture, Size};

#[test]
fn build_writes_the_worked_file() {
    let folder = Folder::worked("build");
    assert_eq!(folder.served("build picture.pgm -o built.multi"), "");
    assert_eq!(folder.get("built.multi"), FILE);
    let names = ["built.multi", "picture.multi", "picture.pgm"];
    assert_eq!(folder.names(), names);
}

#[test]
fn build_takes_depth_and_growth() {
    let folder = Folder::worked("range");
    let range = |options: &str| {
        let text = folder.served(&format!("build picture.pgm -o - {options}"));
        text.lines().nth(2).unwrap().to_string()
    };
    assert_eq!(range("--depth 1"), "(range 1 1)");
    assert_eq!(range("--depth 0"), "(range 0 0)");
    assert_eq!(range("--growth 0"), "(range 2 0)");
    assert_eq!(range("--depth 1 --growth 0"), "(range 1 0)");
}

#[test]
fn standard_input_and_output() {
    let folder = Folder::new("standard");
    let built = folder.run_with("build - -o -", PICTURE);
    assert_eq!((built.status, built.out.as_slice()), (0, FILE));
    let shown = folder.run_with("show - 3 -o -", FILE);
    assert_eq!((shown.status, shown.out.as_slice()), (0, PICTURE));
    assert!(folder.names().is_empty());
}

#[test]
fn check_and_info() {
    let folder = Folder::worked("info");
    assert_eq!(folder.served("check picture.multi"), "accepted\n");
    let info = "width 3, height 2, grey\ndepth 2, growth 1\nenergy edge\nwidths 1 to 4\n";
    assert_eq!(folder.served("info picture.multi"), info);
}

#[test]
fn show_writes_each_width() {
    let folder = Folder::worked("show");
    let shown = |width: usize| {
        folder.served(&format!("show picture.multi {width} -o shown.pgm"));
        folder.get("shown.pgm")
    };
    assert_eq!(shown(1), b"P5\n1 2\n255\n\x0a\x32");
    assert_eq!(shown(2), b"P5\n2 2\n255\n\x0a\x28\x32\x28");
    assert_eq!(shown(3), PICTURE);
    assert_eq!(shown(4), b"P5\n4 2\n255\n\x0a\x0a\x0a\x28\x0a\x1e\x32\x28");
}

#[test]
fn seams_are_drawn_in_colours() {
    let folder = Folder::worked("seams");
    folder.served("seams picture.multi -o drawn.ppm");
    let (first, last) = ([0, 0, 255], [255, 0, 0]);
    let pixels = [first, [10; 3], last, first, [50; 3], last];
    let drawn = Picture::new(Size::rgb(3, 2), pixels.concat());
    assert_eq!(netpbm::read(&folder.get("drawn.ppm")), drawn);
    folder.served("seams picture.multi --first 1 -o drawn.ppm");
    let pixels = [first, [10; 3], [40; 3], first, [50; 3], [40; 3]];
    let drawn = Picture::new(Size::rgb(3, 2), pixels.concat());
    assert_eq!(netpbm::read(&folder.get("drawn.ppm")), drawn);
}

#[test]
fn table_lists_the_worked_seams() {
    let folder = Folder::worked("table");
    let table = "seam,cost,row_0_left,row_1_left,row_0_original,row_1_original\n\
        1,40,0,0,0,0\n2,40,1,1,2,2\n";
    assert_eq!(folder.served("table picture.multi"), table);
    assert_eq!(folder.served("table picture.multi -o seams.csv"), "");
    assert_eq!(folder.get("seams.csv"), table.as_bytes());
}

#[test]
fn a_long_table_has_a_line_for_each_seam_and_row() {
    let folder = Folder::worked("long");
    let table = "seam,cost,row,left,original\n1,40,0,0,0\n1,40,1,0,0\n2,40,0,1,2\n2,40,1,1,2\n";
    assert_eq!(folder.served("table picture.multi --long"), table);
    assert_eq!(folder.served("table --long picture.multi -o long.csv"), "");
    assert_eq!(folder.get("long.csv"), table.as_bytes());
}

/// The energies are 30 40 40 and 60 40 40: the first seam goes from column 0 to column 1.
#[test]
fn a_slanted_seam_is_drawn_and_listed() {
    let folder = Folder::new("slanted");
    folder.put("a.pgm", b"P5\n3 2\n255\n\x0a\x0a\x32\x28\x0a\x32");
    folder.served("build a.pgm -o a.multi");
    folder.served("seams a.multi -o drawn.ppm");
    let (first, last) = ([0, 0, 255], [255, 0, 0]);
    let pixels = [first, [10; 3], last, [40; 3], first, last];
    let drawn = Picture::new(Size::rgb(3, 2), pixels.concat());
    assert_eq!(netpbm::read(&folder.get("drawn.ppm")), drawn);
    let table = folder.served("table a.multi");
    assert!(table.ends_with("_original\n1,70,0,1,0,1\n2,50,1,1,2,2\n"));
    let long = folder.served("table a.multi --long");
    assert!(long.ends_with("original\n1,70,0,0,0\n1,70,1,1,1\n2,50,0,1,2\n2,50,1,1,2\n"));
}

#[test]
fn both_tables_say_the_same() {
    let folder = Folder::new("tables");
    folder.put("large.ppm", &netpbm::write(&slopes(20, 12)));
    folder.served("build large.ppm -o large.multi");
    let numbers = |text: String| -> Vec<Vec<usize>> {
        let numbers = |line: &str| line.split(',').map(|n| n.parse().unwrap()).collect();
        text.lines().skip(1).map(numbers).collect()
    };
    let wide = numbers(folder.served("table large.multi"));
    let long = numbers(folder.served("table large.multi --long"));
    assert_eq!(long.len(), 19 * 12);
    for (at, line) in long.iter().enumerate() {
        let (seam, row) = (&wide[at / 12], at % 12);
        assert_eq!(
            *line,
            [seam[0], seam[1], row, seam[2 + row], seam[14 + row]]
        );
    }
}

/// A picture with slopes in both directions and some noise.
fn slopes(width: usize, height: usize) -> Picture {
    let sample = |at: usize| ((at % width) * 5 + (at / width) * 3 + at * at % 23) as u8;
    let samples = (0..width * height * 3).map(|at| sample(at / 3)).collect();
    Picture::new(Size::rgb(width, height), samples).unwrap()
}

#[test]
fn table_of_a_larger_picture_agrees_with_its_map() {
    let folder = Folder::new("large");
    folder.put("large.ppm", &netpbm::write(&slopes(40, 30)));
    folder.served("build large.ppm -o large.multi");
    let table = folder.served("table large.multi");
    let lines = table.lines().skip(1);
    let numbers = |line: &str| line.split(',').map(|n| n.parse().unwrap()).collect();
    let seams: Vec<Vec<usize>> = lines.map(numbers).collect();
    assert_eq!(seams.len(), 39);
    for row in 0..30 {
        // The columns that are left, by their original numbers.
        let mut left: Vec<usize> = (0..40).collect();
        for (at, seam) in seams.iter().enumerate() {
            assert_eq!((seam[0], seam.len()), (at + 1, 62));
            assert_eq!(left.remove(seam[2 + row]), seam[32 + row]);
        }
    }
}

#[test]
fn a_file_of_a_flat_rgb_picture_grows_past_512() {
    let folder = Folder::new("wide");
    let wide = Picture::new(Size::rgb(512, 1), vec![9; 1536]).unwrap();
    folder.put("wide.ppm", &netpbm::write(&wide));
    folder.served("build wide.ppm -o wide.multi");
    folder.served("show wide.multi 768 -o wider.ppm");
    assert!(folder.get("wider.ppm").starts_with(b"P6\n768 1\n255\n"));
}
