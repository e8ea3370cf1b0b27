//! The worked example of the specification, and pictures at its limits.

use multisize::{Axis, Carver, Columns, Ending, Energy, Method};
use multisize::{Picture, Range, Refusal, Rows, Size};
use multisize::{PLAIN, PROTECTED, REMOVE};

const FILE: &str = "(multi\n(size 3 2 grey)\n(range 2 1)\n(energy edge)\n\
    (row 10 10 40)\n(row 10 50 40)\n(map 1 0 2)\n(map 1 0 2)\n)\n";
const FLAT_FILE: &str = "(multi\n(size 3 2 grey)\n(range 2 1)\n(energy flat)\n\
    (row 10 10 40)\n(row 10 50 40)\n(map 2 0 1)\n(map 0 2 1)\n)\n";
const FORWARD_FILE: &str = "(multi\n(size 3 2 grey)\n(range 2 1)\n(energy forward)\n\
    (row 10 10 40)\n(row 10 50 40)\n(map 1 2 0)\n(map 2 1 0)\n)\n";

fn worked() -> Picture {
    Picture::new(Size::grey(3, 2), vec![10, 10, 40, 10, 50, 40]).unwrap()
}

fn plain(size: Size) -> Picture {
    let samples = vec![255; size.width * size.height * size.kind.channels()];
    Picture::new(size, samples).unwrap()
}

#[test]
fn rows_and_energies() {
    let picture = worked();
    assert_eq!(picture.row(0), [10, 10, 40]);
    assert_eq!(picture.row(1), [10, 50, 40]);
    assert!(picture.row(usize::MAX).is_empty());
    assert_eq!(picture.energies(0), Ok(vec![0, 70, 30]));
    assert_eq!(picture.energies(1), Ok(vec![40, 50, 10]));
    assert_eq!(plain(Size::grey(1, 1)).energies(0), Ok(vec![0]));
}

#[test]
fn a_carver_has_the_method_that_it_is_given() {
    assert_eq!(Carver::new().method(), Method::default());
    for energy in Energy::ALL {
        let carver = Carver::by(Method::default().with_energy(*energy));
        assert_eq!(carver.method().energy, *energy);
    }
    let carver = Carver::by(Energy::Edge);
    for row in 0..3 {
        assert_eq!(carver.energies(&worked(), row), worked().energies(row));
    }
}

#[test]
fn energies_have_words() {
    assert_eq!(Energy::default(), Energy::Edge);
    for energy in Energy::ALL {
        assert_eq!(Energy::named(energy.word()), Some(*energy));
    }
    for wrong in ["", "Flat", "flat ", "steep", "forwards", "for"] {
        assert_eq!(Energy::named(wrong), None);
    }
}

#[test]
fn seams_found_and_cut() {
    let (mut picture, mut carver) = (worked(), Carver::new());
    let found = carver.find(&picture, Axis::Vertical).unwrap();
    let first = carver.cut(&mut picture, Axis::Vertical).unwrap();
    assert_eq!(found, first);
    assert_eq!((first.places, first.cost), (vec![0, 0], 40));
    assert_eq!(picture.samples(), [10, 40, 50, 40]);
    let second = carver.cut(&mut picture, Axis::Vertical).unwrap();
    assert_eq!((second.places, second.cost), (vec![1, 1], 40));
    assert_eq!(picture.samples(), [10, 50]);
}

#[test]
fn seams_found_and_cut_by_flat() {
    let (mut picture, mut carver) = (worked(), Carver::by(Energy::Flat));
    assert_eq!(carver.energies(&picture, 0), Ok(vec![0, 70, 0]));
    assert_eq!(carver.energies(&picture, 1), Ok(vec![40, 10, 0]));
    let found = carver.find(&picture, Axis::Vertical).unwrap();
    let first = carver.cut(&mut picture, Axis::Vertical).unwrap();
    assert_eq!(found, first);
    assert_eq!((first.places, first.cost), (vec![2, 2], 0));
    assert_eq!(picture.samples(), [10, 10, 10, 50]);
    let second = carver.cut(&mut picture, Axis::Vertical).unwrap();
    assert_eq!((second.places, second.cost), (vec![0, 1], 0));
    assert_eq!(picture.samples(), [10, 10]);
}

#[test]
fn seams_found_and_cut_by_forward() {
    let (mut picture, mut carver) = (worked(), Carver::by(Energy::Forward));
    assert_eq!(carver.energies(&picture, 0), Ok(vec![0, 30, 30]));
    assert_eq!(carver.energies(&picture, 1), Ok(vec![40, 30, 10]));
    let found = carver.find(&picture, Axis::Vertical).unwrap();
    let first = carver.cut(&mut picture, Axis::Vertical).unwrap();
    assert_eq!(found, first);
    assert_eq!((first.places, first.cost), (vec![0, 1], 30));
    assert_eq!(picture.samples(), [10, 40, 10, 40]);
    let second = carver.cut(&mut picture, Axis::Vertical).unwrap();
    assert_eq!((second.places, second.cost), (vec![0, 0], 60));
    assert_eq!(picture.samples(), [40, 40]);
}

/// In row 0 all three are alike, and by the other energies in every row.
#[test]
fn steps_cost_by_where_they_come_from() {
    let picture = worked();
    for energy in Energy::ALL {
        let carver = Carver::by(*energy);
        for row in 0..2 {
            let costs = carver.step_costs(&picture, row).unwrap();
            assert_eq!(Ok(&costs.up), carver.energies(&picture, row).as_ref());
            let alike = costs.left == costs.up && costs.right == costs.up;
            assert_eq!(alike, row == 0 || *energy != Energy::Forward);
        }
        assert_eq!(carver.step_costs(&picture, 2), Err(Refusal::Length));
    }
    let column = Picture::new(Size::grey(1, 2), vec![10, 30]).unwrap();
    let costs = Carver::by(Energy::Forward).step_costs(&column, 1).unwrap();
    assert_eq!([costs.left, costs.up, costs.right], [[20], [0], [20]]);
}

/// Pictures with a line along the right and along the bottom edge, and the axis of the
/// seams that run beside it.
fn lined() -> [(Picture, Axis); 2] {
    let upright = vec![10, 20, 30, 200, 10, 20, 30, 200];
    let level = vec![10, 10, 20, 20, 30, 30, 200, 200];
    [
        (Size::grey(4, 2), upright, Axis::Vertical),
        (Size::grey(2, 4), level, Axis::Horizontal),
    ]
    .map(|(size, samples, axis)| (Picture::new(size, samples).unwrap(), axis))
}

/// A line along the right or the bottom edge is what differs most, and stays to the
/// last.
#[test]
fn a_line_along_the_edge_stays() {
    let mut carver = Carver::new();
    let [(upright, _), _] = lined();
    let file = carver.build(&upright, Range::full(4)).unwrap();
    let map = carver.read(&file).unwrap().map;
    assert_eq!(map, [1, 2, 3, 0, 1, 2, 3, 0]);
    for (mut picture, axis) in lined() {
        for cost in [20, 20, 340] {
            let seam = carver.cut(&mut picture, axis).unwrap();
            assert_eq!((seam.places, seam.cost), (vec![0, 0], cost));
        }
        assert_eq!(picture.samples(), [200, 200]);
    }
}

/// By the differences to the right and below alone the line has no energy and is cut
/// first.
#[test]
fn a_line_along_the_edge_goes_by_flat() {
    let mut carver = Carver::by(Energy::Flat);
    let [(upright, _), _] = lined();
    let file = carver.build(&upright, Range::full(4)).unwrap();
    let map = carver.read(&file).unwrap().map;
    assert_eq!(map, [0, 3, 2, 1, 0, 3, 2, 1]);
    for (mut picture, axis) in lined() {
        for place in [3, 2, 1] {
            let seam = carver.cut(&mut picture, axis).unwrap();
            assert_eq!((seam.places, seam.cost), (vec![place, place], 0));
        }
        assert_eq!(picture.samples(), [10, 10]);
    }
}

/// At width 1 no pixel has a neighbour beside it, at height 1 none above or below.
#[test]
fn the_one_column_or_row_has_one_difference() {
    let column = Picture::new(Size::grey(1, 3), vec![10, 30, 90]).unwrap();
    let row = Picture::new(Size::rgb(2, 1), vec![1, 2, 3, 11, 0, 7]).unwrap();
    for (energy, last, in_row) in [(Energy::Edge, 60, [16, 16]), (Energy::Flat, 0, [16, 0])] {
        let carver = Carver::by(energy);
        for (row, energy) in [20, 60, last].into_iter().enumerate() {
            assert_eq!(carver.energies(&column, row), Ok(vec![energy]));
        }
        assert_eq!(carver.energies(&row, 0), Ok(in_row.to_vec()));
    }
}

#[test]
fn a_horizontal_seam_is_cut() {
    for (energy, places, cost, left) in [
        (Energy::Edge, [0, 1, 1], 60, [10, 10, 40]),
        (Energy::Flat, [0, 1, 0], 10, [10, 10, 40]),
        (Energy::Forward, [0, 0, 0], 40, [10, 50, 40]),
    ] {
        let (mut picture, mut carver) = (worked(), Carver::by(energy));
        let seam = carver.cut(&mut picture, Axis::Horizontal).unwrap();
        assert_eq!((seam.places, seam.cost), (places.to_vec(), cost));
        assert_eq!(picture.size(), Size::grey(3, 1));
        assert_eq!(picture.samples(), left);
    }
}

#[test]
fn seams_found_and_cut_by_marks() {
    for (energy, cost) in [
        (Energy::Edge, 80),
        (Energy::Flat, 70),
        (Energy::Forward, 50),
    ] {
        let (mut picture, mut carver) = (worked(), Carver::by(energy));
        let mut marks = vec![PLAIN, REMOVE, PROTECTED, PLAIN, PLAIN, PLAIN];
        let found = carver.find_marked(&picture, &marks, Axis::Vertical);
        let cut = carver.cut_marked(&mut picture, &mut marks, Axis::Vertical);
        assert_eq!(found, cut);
        let cut = cut.unwrap();
        assert_eq!((cut.places, cut.cost), (vec![1, 2], cost));
        assert_eq!(picture.samples(), [10, 40, 10, 50]);
        assert_eq!(marks, [PLAIN, PROTECTED, PLAIN, PLAIN]);
    }
}

#[test]
fn removals_end_in_four_ways() {
    let mut carver = Carver::new();
    let mut ends = |mut picture: Picture, mut marks: Vec<u8>, budget| {
        let ending = carver.remove(&mut picture, &mut marks, budget).unwrap();
        assert_eq!(marks.len(), picture.size().width * picture.size().height);
        (ending, picture.size().width)
    };
    let marks = vec![0, 2, 1, 0, 0, 0];
    assert_eq!(ends(worked(), marks.clone(), 65535), (Ending::Done(1), 2));
    assert_eq!(ends(worked(), marks, 0), (Ending::Spent(0), 3));
    let column = plain(Size::grey(1, 2));
    assert_eq!(ends(column, vec![0, 2], 0), (Ending::Narrow(0), 1));
    let walled = vec![2, 0, 2, 1, 1, 1];
    assert_eq!(ends(worked(), walled, 7), (Ending::Blocked(0), 3));
}

#[test]
fn a_retarget_in_both_directions() {
    let given = Carver::new()
        .retarget(&worked(), Rows(1), Columns(1))
        .unwrap();
    assert_eq!(given.picture.size(), Size::grey(2, 1));
    assert_eq!(given.picture.samples(), [10, 40]);
    assert_eq!(given.total, 60);
    let whole = Carver::new().retarget(&worked(), Rows(0), Columns(0));
    assert_eq!(whole.unwrap().picture, worked());
    let by_flat = Carver::by(Energy::Flat).retarget(&worked(), Rows(1), Columns(1));
    let by_flat = by_flat.unwrap();
    assert_eq!(by_flat.picture.samples(), [10, 10]);
    assert_eq!(by_flat.total, 0);
    let forward = Carver::by(Energy::Forward).retarget(&worked(), Rows(1), Columns(1));
    let forward = forward.unwrap();
    assert_eq!(forward.picture.samples(), [10, 40]);
    assert_eq!(forward.total, 30);
}

/// One pixel protected, one to be removed: columns 2, 2 at 30 + 10, where 1, 2 cost
/// 30 + 20.
#[test]
fn a_seam_by_marks_and_forward() {
    let marks = [PROTECTED, PLAIN, PLAIN, PLAIN, PLAIN, REMOVE];
    let mut carver = Carver::by(Energy::Forward);
    let seam = carver.find_marked(&worked(), &marks, Axis::Vertical);
    let seam = seam.unwrap();
    assert_eq!((seam.places, seam.cost), (vec![2, 2], 40));
}

/// The one pixel marked goes by each energy. Below it the seam takes column 0 by edge,
/// where that costs 40 and column 1 costs 50, and column 1 by flat: 40 and 10, and by
/// forward: 40 and 30.
#[test]
fn a_removal_by_each_energy() {
    for (energy, left) in [
        (Energy::Edge, [10, 40, 50, 40]),
        (Energy::Flat, [10, 40, 10, 40]),
        (Energy::Forward, [10, 40, 10, 40]),
    ] {
        let (mut picture, mut marks) = (worked(), vec![REMOVE, 0, 0, 0, 0, 0]);
        let ending = Carver::by(energy).remove(&mut picture, &mut marks, 9);
        assert_eq!(ending, Ok(Ending::Done(1)));
        assert_eq!(picture.samples(), left);
    }
}

/// A file is built by the carver's energy, and checked and read by its own.
#[test]
fn the_file_is_built_checked_and_read() {
    for (energy, text, map) in [
        (Energy::Edge, FILE, [1, 0, 2, 1, 0, 2]),
        (Energy::Flat, FLAT_FILE, [2, 0, 1, 0, 2, 1]),
        (Energy::Forward, FORWARD_FILE, [1, 2, 0, 2, 1, 0]),
    ] {
        let file = Carver::by(energy).build(&worked(), Range::full(3)).unwrap();
        assert_eq!(file, text.as_bytes());
        for carver in Energy::ALL {
            let mut carver = Carver::by(*carver);
            let head = carver.check(&file).unwrap();
            assert_eq!((head.size, head.range), (Size::grey(3, 2), Range::full(3)));
            assert_eq!(head.method, Method::from(energy));
            let contents = carver.read(&file).unwrap();
            assert_eq!(contents.head(), head);
            assert_eq!(contents.picture, worked());
            assert_eq!(contents.map, map);
        }
    }
}

/// Where all samples are equal, every seam costs nothing by each energy: the files differ
/// by the word alone.
#[test]
fn files_of_several_energies_differ() {
    let range = Range::full(4);
    let built = |energy: Energy| {
        let file = Carver::by(energy).build(&plain(Size::rgb(4, 3)), range);
        String::from_utf8(file.unwrap()).unwrap()
    };
    let edge = built(Energy::Edge);
    for energy in Energy::ALL {
        assert_eq!(edge.replace("edge", energy.word()), built(*energy));
    }
}

#[test]
fn the_file_of_flat_is_shown_at_each_width() {
    let mut carver = Carver::new();
    let mut shown = |width| carver.show(FLAT_FILE.as_bytes(), width);
    assert_eq!(shown(1).unwrap().samples(), [10, 10]);
    assert_eq!(shown(2).unwrap().samples(), [10, 10, 10, 50]);
    assert_eq!(shown(3), Ok(worked()));
    let wide = shown(4).unwrap();
    assert_eq!(wide.samples(), [10, 10, 25, 40, 10, 50, 45, 40]);
    assert_eq!(shown(5), Err(Refusal::Wanted));
}

#[test]
fn the_file_of_forward_is_shown_at_each_width() {
    let mut carver = Carver::new();
    let mut shown = |width| carver.show(FORWARD_FILE.as_bytes(), width);
    assert_eq!(shown(1).unwrap().samples(), [40, 40]);
    assert_eq!(shown(2).unwrap().samples(), [10, 40, 10, 40]);
    assert_eq!(shown(3), Ok(worked()));
    let wide = shown(4).unwrap();
    assert_eq!(wide.samples(), [10, 10, 10, 40, 10, 50, 45, 40]);
    assert_eq!(shown(5), Err(Refusal::Wanted));
}

#[test]
fn the_file_is_shown_at_each_width() {
    let mut carver = Carver::new();
    let mut shown = |width| carver.show(FILE.as_bytes(), width);
    assert_eq!(shown(1).unwrap().samples(), [10, 50]);
    assert_eq!(shown(2).unwrap().samples(), [10, 40, 50, 40]);
    assert_eq!(shown(3), Ok(worked()));
    let wide = shown(4).unwrap();
    assert_eq!(wide.samples(), [10, 10, 10, 40, 10, 30, 50, 40]);
    for width in [0, 5, usize::MAX] {
        assert_eq!(shown(width), Err(Refusal::Wanted));
    }
}

/// Its first seam is the last column: 40, where the first column costs 70. A pixel that
/// doubles one of the last column stands to the left of it.
#[test]
fn the_last_column_is_doubled_to_the_left() {
    let mut carver = Carver::new();
    let picture = Picture::new(Size::grey(3, 2), vec![0, 10, 40, 10, 50, 40]).unwrap();
    let file = carver.build(&picture, Range::full(3)).unwrap();
    let contents = carver.read(&file).unwrap();
    assert_eq!(contents.map, [2, 0, 1, 2, 0, 1]);
    let narrow = carver.show(&file, 2).unwrap();
    assert_eq!(narrow.samples(), [0, 10, 10, 50]);
    let wide = carver.show(&file, 4).unwrap();
    assert_eq!(wide.samples(), [0, 10, 25, 40, 10, 50, 45, 40]);
    assert_eq!(contents.show(4), Ok(wide));
}

/// Builds the file of a picture of one sample and reads and shows it.
fn round(carver: &mut Carver, size: Size, sample: u8) {
    let channels = size.kind.channels();
    let samples = vec![sample; size.width * size.height * channels];
    let picture = Picture::new(size, samples).unwrap();
    let file = carver.build(&picture, Range::full(size.width)).unwrap();
    assert_eq!(carver.read(&file).unwrap().picture, picture);
    let widest = *carver.check(&file).unwrap().widths().end();
    let shown = carver.show(&file, widest).unwrap();
    assert_eq!(shown.samples().len(), widest * size.height * channels);
}

/// Spaces made from the length of a text are long enough where a pixel takes
/// the fewest bytes and where it takes the most. A width of 10 has the most
/// pixels for its text, since its seam numbers have one digit.
#[test]
fn spaces_are_never_too_short() {
    // Of the energies its word is the longest.
    let mut carver = Carver::by(Energy::Forward);
    for side in [1, 2, 3, 9, 10, 11, 100, 512] {
        for size in [Size::grey(side, 1), Size::rgb(side, 1), Size::rgb(1, side)] {
            round(&mut carver, size, 0);
            round(&mut carver, size, 255);
        }
    }
    round(&mut carver, Size::grey(10, 512), 0);
    round(&mut carver, Size::rgb(10, 512), 0);
}

#[test]
fn a_picture_shown_may_be_wider_than_operations_take() {
    let mut carver = Carver::new();
    let file = carver.build(&plain(Size::rgb(512, 1)), Range::full(512));
    let wide = carver.show(&file.unwrap(), 768).unwrap();
    assert_eq!(wide.size(), Size::rgb(768, 1));
    assert_eq!(wide.energies(0), Err(Refusal::Large));
    let found = carver.find(&wide, Axis::Vertical);
    assert_eq!(found, Err(Refusal::Large));
    let built = carver.build(&wide, Range::full(768));
    assert_eq!(built, Err(Refusal::Large));
}
