//! Mark buffers: 0 plain, 1 protected, 2 to be removed.

use crate::faults::Faults;
use crate::pictures::buffer_length;
use crate::random::Random;
use crate::spaces::Lent;
use reference::Size;

/// The marks that a case brings for a picture of this size.
pub type Draw = fn(&mut Random, Size, Faults) -> Lent<u8>;

/// No marks, for an operation that takes none.
pub fn none(random: &mut Random, _: Size, _: Faults) -> Lent<u8> {
    Lent::holding(random, &[])
}

/// A mark for each pixel. A fault is a mark over 2 or a wrong length.
pub fn each(random: &mut Random, size: Size, faults: Faults) -> Lent<u8> {
    let pixels = size.width * size.height;
    let contents = random.pick(&[mixture, mixture, areas, wall]);
    let mut marks = contents(random, size);
    if faults.strike(random, 3) {
        let place = random.below(pixels);
        let any = random.between(3, 255) as u8;
        marks[place] = random.pick(&[3, any]);
    }
    let length = buffer_length(random, pixels, 3 * pixels, faults);
    marks.resize(length, 0);
    Lent::holding(random, &marks)
}

/// Marks drawn from a mixture that leaves some pictures without marks 1 or 2
/// and gives others many.
fn mixture(random: &mut Random, size: Size) -> Vec<u8> {
    let choices: &[u8] = random.pick(&[
        &[0],
        &[0, 1, 2],
        &[0, 0, 0, 0, 0, 0, 1, 2],
        &[0, 0, 0, 1],
        &[0, 0, 0, 2],
        &[1, 2],
    ]);
    each_pixel(size, |_, _| random.pick(choices))
}

/// Some areas of one mark each, a later one over the earlier ones.
fn areas(random: &mut Random, size: Size) -> Vec<u8> {
    let mut marks = each_pixel(size, |_, _| 0);
    for _ in 0..random.between(1, 4) {
        let mark = random.pick(&[0, 1, 2, 2]);
        let (top, bottom) = span(random, size.height);
        let (left, right) = span(random, size.width);
        for row in top..bottom {
            marks[row * size.width + left..row * size.width + right].fill(mark);
        }
    }
    marks
}

/// A row or a column all protected, but for a gap in half of them: the seams
/// across it are blocked, or pass the gap.
fn wall(random: &mut Random, size: Size) -> Vec<u8> {
    let (row, column) = (random.below(size.height), random.below(size.width));
    let (across, gap) = (random.one_in(2), random.one_in(2));
    let choices: &[u8] = random.pick(&[&[0], &[2], &[0, 2]]);
    each_pixel(size, |r, c| {
        let walled = if across { r == row } else { c == column };
        if walled && !(gap && (r, c) == (row, column)) {
            1
        } else {
            random.pick(choices)
        }
    })
}

/// A part of a side that isn't empty: its first place and the one after it.
fn span(random: &mut Random, side: usize) -> (usize, usize) {
    let (one, other) = (random.below(side), random.below(side));
    (one.min(other), one.max(other) + 1)
}

/// The marks whose entry at (row, column) is given.
fn each_pixel(size: Size, mut mark: impl FnMut(usize, usize) -> u8) -> Vec<u8> {
    let Size { width, height, .. } = size;
    let places = (0..height).flat_map(|row| (0..width).map(move |column| (row, column)));
    places.map(|(row, column)| mark(row, column)).collect()
}

#[cfg(test)]
mod tests {
    use super::*;
    use reference::Kind;

    const SIZE: Size = Size {
        width: 4,
        height: 3,
        kind: Kind::Rgb,
    };

    fn many(faults: Faults) -> Vec<Lent<u8>> {
        let mut random = Random::new(1);
        (0..600).map(|_| each(&mut random, SIZE, faults)).collect()
    }

    #[test]
    fn marks_without_fault_fit_and_mix() {
        let many = many(Faults::Never);
        assert!(many.iter().all(|marks| marks.part().len() == 12));
        assert!(many
            .iter()
            .all(|marks| marks.part().iter().all(|mark| *mark <= 2)));
        let mixed = |marks: &&Lent<u8>| (0..=2).all(|mark| marks.part().contains(&mark));
        assert!(many.iter().filter(mixed).count() > 100);
        assert!(many.iter().any(|marks| marks.part() == [0; 12]));
    }

    #[test]
    fn damaged_marks_occur() {
        let many = many(Faults::Maybe);
        let over = |marks: &&Lent<u8>| marks.part().iter().any(|mark| *mark > 2);
        assert!(many.iter().filter(over).count() > 50);
        assert!(many.iter().any(|marks| marks.part().contains(&3)));
        for length in [0, 11, 12, 13, 36] {
            assert!(many.iter().any(|marks| marks.part().len() == length));
        }
    }

    #[test]
    fn walls_of_either_direction_come_with_and_without_a_gap() {
        let mut random = Random::new(2);
        let walls: Vec<_> = (0..400).map(|_| wall(&mut random, SIZE)).collect();
        for protected in [2, 3, 4] {
            let count = |marks: &Vec<u8>| marks.iter().filter(|mark| **mark == 1).count();
            assert!(walls.iter().any(|marks| count(marks) == protected));
        }
        assert!(walls.iter().any(|marks| marks[4..8] == [1; 4]));
        assert!(walls.iter().any(|marks| marks[4..8] == [1, 0, 1, 1]));
    }

    #[test]
    fn areas_lie_inside() {
        let mut random = Random::new(3);
        let areas: Vec<_> = (0..400).map(|_| areas(&mut random, SIZE)).collect();
        assert!(areas.iter().all(|marks| marks.len() == 12));
        assert!(areas.contains(&vec![2; 12]));
        assert!(areas.contains(&vec![0, 0, 0, 0, 0, 2, 2, 0, 0, 2, 2, 0]));
    }

    #[test]
    fn operations_without_marks_get_an_empty_buffer() {
        let marks = none(&mut Random::new(4), SIZE, Faults::Maybe);
        assert!(marks.part().is_empty());
    }
}
