//! Each refusal, and that what was lent stays as it was.

use multisize::LARGEST_COUNT;
use multisize::{Axis, Carver, Columns, Energy, Head, Picture, Range, Refusal, Rows, Size};

fn worked() -> Picture {
    Picture::new(Size::grey(3, 2), vec![10, 10, 40, 10, 50, 40]).unwrap()
}

/// A file with the worked picture, by edge.
fn checked(size: &str, range: &str, maps: [&str; 2]) -> Result<Head, Refusal> {
    let head = format!("(size {size})\n(range {range})\n(energy edge)\n");
    headed(&head, maps)
}

/// A file with the worked picture and these lines before its rows.
fn headed(head: &str, maps: [&str; 2]) -> Result<Head, Refusal> {
    let [first, second] = maps;
    let rows = "(row 10 10 40)\n(row 10 50 40)";
    let file = format!("(multi\n{head}{rows}\n(map {first})\n(map {second})\n)\n");
    Carver::new().check(file.as_bytes())
}

const MAPS: [&str; 2] = ["1 0 2", "1 0 2"];

#[test]
fn the_worked_file_is_accepted() {
    assert!(checked("3 2 grey", "2 1", MAPS).is_ok());
}

#[test]
fn refused_by_1() {
    assert_eq!(checked("03 2 grey", "2 1", MAPS), Err(Refusal::Form));
    assert_eq!(Carver::new().check(b""), Err(Refusal::Form));
}

/// The energy stands after the range, once and as one of its words.
#[test]
fn an_energy_line_out_of_form_is_refused_by_1() {
    let (size, range, energy) = ("(size 3 2 grey)\n", "(range 2 1)\n", "(energy edge)\n");
    assert!(headed(&[size, range, energy].concat(), MAPS).is_ok());
    for lines in [
        [size, range, ""],
        [size, energy, range],
        [energy, size, range],
        [size, range, "(energy edge)\n(energy edge)\n"],
        [size, range, "(energy edge)\n(energy flat)\n"],
        [size, range, "(energy steep)\n"],
        [size, range, "(energy Edge)\n"],
        [size, range, "(energy edges)\n"],
        [size, range, "(energy edge flat)\n"],
        [size, range, "(energy forward edge)\n"],
        [size, range, "(energy forwards)\n"],
        [size, range, "(energy forwar)\n"],
        [size, range, "(energy forward)\n(energy flat)\n"],
        [size, range, "(energy (edge))\n"],
        [size, range, "(energy  edge)\n"],
        [size, range, "(energy edge )\n"],
        [size, range, "(energy edge)"],
        [size, range, "(energy)\n"],
        [size, range, "(energy 0)\n"],
        [size, range, "(energy grey)\n"],
        [size, range, "(edge)\n"],
    ] {
        let given = headed(&lines.concat(), MAPS);
        assert_eq!(given, Err(Refusal::Form), "{lines:?}");
    }
}

/// Form comes first: the energy is read past what 2, 3 and 6 refuse.
#[test]
fn a_missing_energy_line_comes_before_other_numbers() {
    for (size, range, number) in [
        ("0 2 grey", "2 1", Refusal::Empty),
        ("513 2 grey", "2 1", Refusal::Large),
        ("3 1 grey", "2 1", Refusal::Length),
        ("3 2 grey", "3 1", Refusal::Range),
    ] {
        assert_eq!(checked(size, range, MAPS), Err(number));
        let head = format!("(size {size})\n(range {range})\n");
        assert_eq!(headed(&head, MAPS), Err(Refusal::Form));
    }
}

#[test]
fn refused_by_2() {
    assert_eq!(checked("0 2 grey", "2 1", MAPS), Err(Refusal::Empty));
    let none = Picture::new(Size::grey(0, 2), vec![]);
    assert_eq!(none, Err(Refusal::Empty));
}

#[test]
fn refused_by_3() {
    assert_eq!(checked("513 2 grey", "2 1", MAPS), Err(Refusal::Large));
    let wide = Picture::new(Size::grey(513, 1), vec![0; 513]);
    assert_eq!(wide, Err(Refusal::Large));
    let vast = Picture::new(Size::rgb(usize::MAX, usize::MAX), vec![]);
    assert_eq!(vast, Err(Refusal::Large));
    assert!(Picture::new(Size::grey(512, 1), vec![0; 512]).is_ok());
}

#[test]
fn refused_by_4() {
    assert_eq!(checked("2 2 grey", "1 1", MAPS), Err(Refusal::Length));
    let short = Picture::new(Size::grey(3, 2), vec![0; 5]);
    assert_eq!(short, Err(Refusal::Length));
    assert_eq!(worked().energies(2), Err(Refusal::Length));
    let marked = Carver::new().find_marked(&worked(), &[0; 5], Axis::Vertical);
    assert_eq!(marked, Err(Refusal::Length));
}

#[test]
fn refused_by_5() {
    let (mut picture, mut marks) = (worked(), vec![0, 0, 0, 0, 0, 3]);
    let removed = Carver::new().remove(&mut picture, &mut marks, 1);
    assert_eq!(removed, Err(Refusal::Mark));
    assert_eq!((picture, marks), (worked(), vec![0, 0, 0, 0, 0, 3]));
}

#[test]
fn refused_by_6() {
    assert_eq!(checked("3 2 grey", "3 1", MAPS), Err(Refusal::Range));
    for (depth, growth) in [(3, 1), (2, 2), (0, 1), (usize::MAX, usize::MAX)] {
        let built = Carver::new().build(&worked(), Range { depth, growth });
        assert_eq!(built, Err(Refusal::Range));
    }
}

#[test]
fn refused_by_7() {
    for (rows, columns) in [(2, 0), (0, 3), (65, 0), (0, usize::MAX)] {
        let given = Carver::new().retarget(&worked(), Rows(rows), Columns(columns));
        assert_eq!(given, Err(Refusal::Wanted));
    }
    let high = Picture::new(Size::grey(2, 80), vec![7; 160]).unwrap();
    let less = |rows| Carver::new().retarget(&high, Rows(rows), Columns(0));
    assert!(less(LARGEST_COUNT).is_ok());
    assert_eq!(less(LARGEST_COUNT + 1), Err(Refusal::Wanted));
}

#[test]
fn refused_by_9_to_11() {
    let numbered = |maps| checked("3 2 grey", "2 1", maps);
    assert_eq!(numbered(["2 2 1", "1 0 2"]), Err(Refusal::Numbering));
    assert_eq!(numbered(["1 0 2", "0 2 1"]), Err(Refusal::Broken));
    // The second seam isn't the one found.
    assert_eq!(numbered(["1 0 2", "1 2 0"]), Err(Refusal::Other));
    // Nor is the first, which costs as much as the one found and comes after it.
    assert_eq!(numbered(["2 0 1", "0 2 1"]), Err(Refusal::Other));
}

/// The map of one energy is refused in a file that names another.
#[test]
fn a_file_is_judged_by_the_energy_that_it_names() {
    let judged = |word: &str, maps| {
        let head = format!("(size 3 2 grey)\n(range 2 1)\n(energy {word})\n");
        headed(&head, maps).map(|head| head.method.energy)
    };
    let flat = ["2 0 1", "0 2 1"];
    assert_eq!(judged("edge", MAPS), Ok(Energy::Edge));
    assert_eq!(judged("flat", flat), Ok(Energy::Flat));
    assert_eq!(judged("edge", flat), Err(Refusal::Other));
    assert_eq!(judged("flat", MAPS), Err(Refusal::Other));
    assert_eq!(judged("flat", ["1 0 2", "0 2 1"]), Err(Refusal::Broken));
    let forward = ["1 2 0", "2 1 0"];
    assert_eq!(judged("forward", forward), Ok(Energy::Forward));
    for word in ["edge", "flat"] {
        assert_eq!(judged(word, forward), Err(Refusal::Other));
    }
    for maps in [MAPS, flat] {
        assert_eq!(judged("forward", maps), Err(Refusal::Other));
    }
}

#[test]
fn refused_by_12() {
    let (mut picture, mut marks) = (worked(), vec![0, 0, 0, 1, 1, 1]);
    let mut carver = Carver::new();
    let found = carver.find_marked(&picture, &marks, Axis::Vertical);
    assert_eq!(found, Err(Refusal::Protected));
    let cut = carver.cut_marked(&mut picture, &mut marks, Axis::Vertical);
    assert_eq!(cut, Err(Refusal::Protected));
    assert_eq!((picture, marks), (worked(), vec![0, 0, 0, 1, 1, 1]));
}

#[test]
fn refused_by_13() {
    let mut carver = Carver::new();
    let mut column = Picture::new(Size::grey(1, 2), vec![7, 9]).unwrap();
    let cut = carver.cut(&mut column, Axis::Vertical);
    assert_eq!(cut, Err(Refusal::Last));
    assert_eq!(column.samples(), [7, 9]);
    assert!(carver.cut(&mut column, Axis::Horizontal).is_ok());
    let marked = carver.cut_marked(&mut column, &mut vec![0], Axis::Horizontal);
    assert_eq!(marked, Err(Refusal::Last));
}
