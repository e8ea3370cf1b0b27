//! The bytes of all lent buffers after each refusal of each operation.

use crate::helpers::*;
use crate::retargets::retarget_work;
use reference::{Axis, Columns, Refusal, Rows, Size};

/// Buffers for one call, with what they held before.
struct Lent {
    picture: Vec<u8>,
    marks: Vec<u8>,
    out: Vec<u8>,
    seam: Vec<u16>,
    map: Vec<u16>,
    work: Vec<u8>,
}

impl Lent {
    fn new(picture: &[u8], marks: &[u8]) -> Lent {
        Lent {
            picture: picture.to_vec(),
            marks: marks.to_vec(),
            out: vec![OLD_BYTE; 400],
            seam: vec![OLD_NUMBER; 9],
            map: vec![OLD_NUMBER; 9],
            work: vec![OLD_BYTE; 900],
        }
    }

    /// After any refusal pictures, marks and output are as they were; work
    /// space is as it was after 1 to 8 and zero after 9 and above.
    fn judge(&self, picture: &[u8], marks: &[u8], number: Refusal) {
        assert_eq!(self.picture, picture);
        assert_eq!(self.marks, marks);
        assert!(self.out.iter().all(|byte| *byte == OLD_BYTE));
        assert!(self.seam.iter().all(|entry| *entry == OLD_NUMBER));
        assert!(self.map.iter().all(|entry| *entry == OLD_NUMBER));
        let old = if number <= 8 { OLD_BYTE } else { 0 };
        assert!(self.work.iter().all(|byte| *byte == old));
    }
}

const MARKS: [u8; 6] = [0, 2, 1, 0, 2, 0];

/// Sizes and marks that 2 to 5 refuse, with the number.
fn bad_arguments() -> Vec<(Size, Vec<u8>, Refusal)> {
    vec![
        (grey(0, 2), MARKS.to_vec(), 2),
        (grey(3, 0), MARKS.to_vec(), 2),
        (grey(513, 2), MARKS.to_vec(), 3),
        (grey(3, 513), MARKS.to_vec(), 3),
        (grey(2, 2), MARKS.to_vec(), 4),
        (rgb(3, 2), MARKS.to_vec(), 4),
        (grey(3, 2), MARKS[..5].to_vec(), 4),
        (grey(3, 2), vec![0; 7], 4),
        (grey(3, 2), vec![0, 0, 0, 0, 0, 3], 5),
        (grey(3, 2), vec![255; 6], 5),
    ]
}

#[test]
fn finding_and_cutting() {
    for (method, axis) in WAYS {
        for (size, marks, number) in bad_arguments() {
            let mut lent = Lent::new(&EXAMPLE, &marks);
            let answer = reference::find_marked(
                &lent.picture,
                &lent.marks,
                size,
                method,
                axis,
                &mut lent.seam,
                &mut lent.work,
            );
            assert_eq!(answer, Err(number));
            lent.judge(&EXAMPLE, &marks, number);
            let answer = reference::cut_marked(
                &mut lent.picture,
                &mut lent.marks,
                size,
                method,
                axis,
                &mut lent.seam,
                &mut lent.work,
            );
            assert_eq!(answer, Err(number));
            lent.judge(&EXAMPLE, &marks, number);
        }
        for (seam_short, work_short) in [(true, false), (false, true)] {
            let mut lent = Lent::new(&EXAMPLE, &MARKS);
            let seam_space = if seam_short { 1 } else { 9 };
            let work_space = if work_short { 191 } else { 900 };
            let answer = reference::find(
                &lent.picture,
                grey(3, 2),
                method,
                axis,
                &mut lent.seam[..seam_space],
                &mut lent.work[..work_space],
            );
            assert_eq!(answer, Err(8));
            lent.judge(&EXAMPLE, &MARKS, 8);
            let answer = reference::cut(
                &mut lent.picture,
                grey(3, 2),
                method,
                axis,
                &mut lent.seam[..seam_space],
                &mut lent.work[..work_space],
            );
            assert_eq!(answer, Err(8));
            lent.judge(&EXAMPLE, &MARKS, 8);
            let answer = reference::cut_marked(
                &mut lent.picture,
                &mut lent.marks,
                grey(3, 2),
                method,
                axis,
                &mut lent.seam[..seam_space],
                &mut lent.work[..work_space],
            );
            assert_eq!(answer, Err(8));
            lent.judge(&EXAMPLE, &MARKS, 8);
        }
    }
}

#[test]
fn twelve_and_thirteen() {
    let marks = [1, 1, 1, 0, 1, 0];
    for (method, axis) in WAYS {
        let mut lent = Lent::new(&EXAMPLE, &marks);
        let answer = reference::find_marked(
            &lent.picture,
            &lent.marks,
            grey(3, 2),
            method,
            axis,
            &mut lent.seam,
            &mut lent.work,
        );
        assert_eq!(answer, Err(12));
        lent.judge(&EXAMPLE, &marks, 12);
        let mut lent = Lent::new(&EXAMPLE, &marks);
        let answer = reference::cut_marked(
            &mut lent.picture,
            &mut lent.marks,
            grey(3, 2),
            method,
            axis,
            &mut lent.seam,
            &mut lent.work,
        );
        assert_eq!(answer, Err(12));
        lent.judge(&EXAMPLE, &marks, 12);
    }
    for (size, axis) in [
        (grey(1, 6), Axis::Vertical),
        (grey(6, 1), Axis::Horizontal),
        (rgb(1, 2), Axis::Vertical),
        (rgb(2, 1), Axis::Horizontal),
    ] {
        let marks = vec![2; size.width * size.height];
        let mut lent = Lent::new(&EXAMPLE, &marks);
        let answer = reference::cut(
            &mut lent.picture,
            size,
            EDGE,
            axis,
            &mut lent.seam,
            &mut lent.work,
        );
        assert_eq!(answer, Err(13));
        lent.judge(&EXAMPLE, &marks, 13);
        let mut lent = Lent::new(&EXAMPLE, &marks);
        let answer = reference::cut_marked(
            &mut lent.picture,
            &mut lent.marks,
            size,
            EDGE,
            axis,
            &mut lent.seam,
            &mut lent.work,
        );
        assert_eq!(answer, Err(13));
        lent.judge(&EXAMPLE, &marks, 13);
    }
}

#[test]
fn object_removal() {
    for (size, marks, number) in bad_arguments() {
        let mut lent = Lent::new(&EXAMPLE, &marks);
        let (picture, work) = (&mut lent.picture, &mut lent.work);
        let answer = reference::remove_object(picture, &mut lent.marks, size, EDGE, 3, work);
        assert_eq!(answer, Err(number));
        lent.judge(&EXAMPLE, &marks, number);
    }
    let mut lent = Lent::new(&EXAMPLE, &MARKS);
    let answer = reference::remove_object(
        &mut lent.picture,
        &mut lent.marks,
        grey(3, 2),
        EDGE,
        3,
        &mut lent.work[..191],
    );
    assert_eq!(answer, Err(8));
    lent.judge(&EXAMPLE, &MARKS, 8);
}

#[test]
fn retargeting() {
    let work = retarget_work(grey(3, 2)).len();
    for (size, rows, columns, out, work, number) in [
        (grey(0, 2), 0, 0, 400, work, 2),
        (grey(513, 2), 0, 0, 400, work, 3),
        (grey(3, 3), 0, 0, 400, work, 4),
        (grey(3, 2), 2, 0, 400, work, 7),
        (grey(3, 2), 0, 3, 400, work, 7),
        (grey(3, 2), 65, 0, 400, work, 7),
        (grey(3, 2), 0, 65, 400, work, 7),
        (grey(3, 2), 1, 1, 1, work, 8),
        (grey(3, 2), 1, 1, 400, 32 * 6 + 66 * 6 - 1, 8),
    ] {
        let mut lent = Lent::new(&EXAMPLE, &MARKS);
        let answer = reference::retarget(
            &lent.picture,
            size,
            EDGE,
            Rows(rows),
            Columns(columns),
            &mut lent.out[..out],
            &mut lent.work[..work],
        );
        assert_eq!(answer, Err(number));
        lent.judge(&EXAMPLE, &MARKS, number);
    }
}

#[test]
fn building() {
    let length = EXAMPLE_FILE.len();
    for (size, depth, growth, out, work, number) in [
        (grey(0, 2), 2, 1, 400, 192, 2),
        (grey(513, 2), 2, 1, 400, 192, 3),
        (grey(3, 3), 2, 1, 400, 192, 4),
        (grey(3, 2), 3, 1, 400, 192, 6),
        (grey(3, 2), 2, 2, 400, 192, 6),
        (grey(3, 2), 0, 1, 400, 192, 6),
        (grey(3, 2), 2, 1, length - 1, 192, 8),
        (grey(3, 2), 2, 1, length, 191, 8),
    ] {
        let mut lent = Lent::new(&EXAMPLE, &MARKS);
        let answer = reference::build(
            &lent.picture,
            size,
            EDGE,
            depth,
            growth,
            &mut lent.out[..out],
            &mut lent.work[..work],
        );
        assert_eq!(answer, Err(number));
        lent.judge(&EXAMPLE, &MARKS, number);
    }
}

/// Output and work spaces of the operations on files, with exactly the
/// lengths that a valid file of this size needs. The whole lent work space is
/// zero after 9 and above, also beyond 32 bytes a pixel.
#[test]
fn operations_on_files() {
    for (old, new, number) in [
        ("(size 3 2 grey)", "(size 03 2 grey)", 1),
        ("(size 3 2 grey)", "(size 0 2 grey)", 2),
        ("(size 3 2 grey)", "(size 3 513 grey)", 3),
        ("(row 10 10 40)", "(row 10 10)", 4),
        ("(range 2 1)", "(range 3 1)", 6),
        ("(map 1 0 2)", "(map 2 2 1)", 9),
        ("(map 1 0 2)", "(map 2 0 1)", 10),
        ("(map 1 0 2)\n(map 1 0 2)", "(map 1 0 2)\n(map 1 2 0)", 11),
        ("(energy edge)\n", "", 1),
        ("(energy edge)", "(energy flat)", 11),
        ("(energy edge)", "(energy forward)", 11),
    ] {
        let file = EXAMPLE_FILE.replacen(old, new, 1).into_bytes();
        for work in [192, 193, 900] {
            let mut lent = Lent::new(&EXAMPLE, &MARKS);
            lent.work.truncate(work);
            assert_eq!(reference::check(&file, &mut lent.work), Err(number));
            lent.judge(&EXAMPLE, &MARKS, number);

            let mut lent = Lent::new(&EXAMPLE, &MARKS);
            lent.work.truncate(work);
            let answer = reference::show(&file, 4, &mut lent.out, &mut lent.work);
            assert_eq!(answer, Err(number));
            lent.judge(&EXAMPLE, &MARKS, number);

            let mut lent = Lent::new(&EXAMPLE, &MARKS);
            lent.work.truncate(work);
            let answer = reference::read(&file, &mut lent.out, &mut lent.map, &mut lent.work);
            assert_eq!(answer, Err(number));
            lent.judge(&EXAMPLE, &MARKS, number);
        }
        if number >= 9 {
            let mut lent = Lent::new(&EXAMPLE, &MARKS);
            assert_eq!(reference::check(&file, &mut lent.work[..191]), Err(8));
            lent.judge(&EXAMPLE, &MARKS, 8);
            let answer = reference::show(&file, 4, &mut lent.out[..7], &mut lent.work);
            assert_eq!(answer, Err(8));
            lent.judge(&EXAMPLE, &MARKS, 8);
            let answer = reference::show(&file, 5, &mut lent.out, &mut lent.work);
            assert_eq!(answer, Err(7));
            lent.judge(&EXAMPLE, &MARKS, 7);
            let answer = reference::read(&file, &mut lent.out[..5], &mut lent.map, &mut lent.work);
            assert_eq!(answer, Err(8));
            lent.judge(&EXAMPLE, &MARKS, 8);
            let answer = reference::read(&file, &mut lent.out, &mut lent.map[..5], &mut lent.work);
            assert_eq!(answer, Err(8));
            lent.judge(&EXAMPLE, &MARKS, 8);
        }
    }
}
