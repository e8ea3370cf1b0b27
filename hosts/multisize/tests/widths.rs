//! What was read is shown at every width as the file itself is shown.

use multisize::{Carver, Contents, Energy, Kind, Picture, Range, Refusal, Size};

/// Slopes with noise, the same on every run.
fn picture(size: Size) -> Picture {
    let channels = size.kind.channels();
    let mut state = 1_u32;
    let samples = (0..size.width * size.height * channels).map(|at| {
        state = state.wrapping_mul(1_664_525).wrapping_add(1_013_904_223);
        let slope = at / channels % size.width * 3 + at / channels / size.width * 5;
        (slope as u32 % 200 + (state >> 24) % 56) as u8
    });
    Picture::new(size, samples.collect()).unwrap()
}

fn read(size: Size, range: Range, carver: &mut Carver) -> (Vec<u8>, Contents) {
    let file = carver.build(&picture(size), range).unwrap();
    let contents = carver.read(&file).unwrap();
    (file, contents)
}

/// At depths none, some and all, and at widths offered and not.
fn shown_alike(size: Size, carver: &mut Carver) {
    for depth in [0, size.width / 2, size.width - 1] {
        let (file, contents) = read(size, Range::deep(size.width, depth), carver);
        for wanted in 0..=2 * size.width + 1 {
            assert_eq!(contents.show(wanted), carver.show(&file, wanted));
        }
    }
}

#[test]
fn what_was_read_is_shown_as_the_file_is() {
    let shapes = [(1, 1), (1, 5), (2, 3), (3, 1), (9, 7), (40, 3), (17, 30)];
    for energy in Energy::ALL {
        let mut carver = Carver::by(*energy);
        for (width, height) in shapes {
            for kind in [Kind::Grey, Kind::Rgb] {
                let size = Size {
                    width,
                    height,
                    kind,
                };
                shown_alike(size, &mut carver);
            }
        }
    }
}

#[test]
fn the_largest_sides_are_shown() {
    let mut carver = Carver::new();
    for size in [Size::rgb(512, 2), Size::grey(512, 3), Size::grey(2, 512)] {
        let (file, contents) = read(size, Range::full(size.width), &mut carver);
        for wanted in contents.head().widths() {
            assert_eq!(contents.show(wanted), carver.show(&file, wanted));
        }
    }
}

#[test]
fn what_was_changed_since_is_judged() {
    let mut carver = Carver::new();
    let (_, contents) = read(Size::rgb(5, 3), Range::full(5), &mut carver);
    let changed = |change: fn(&mut Contents)| {
        let mut contents = contents.clone();
        change(&mut contents);
        contents
    };
    let short = changed(|contents| contents.map.truncate(14));
    let none = changed(|contents| contents.map.fill(0));
    let all = changed(|contents| contents.map.fill(1));
    for contents in [short, none, all] {
        assert_eq!(contents.show(4), Err(Refusal::Length));
        assert_eq!(contents.show(6), Err(Refusal::Length));
    }
    let far = changed(|contents| contents.range.growth = usize::MAX);
    assert_eq!(far.show(usize::MAX), Err(Refusal::Length));
    let deep = changed(|contents| contents.range.depth = usize::MAX);
    assert_eq!(deep.show(0), Err(Refusal::Wanted));
}
