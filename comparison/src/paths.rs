//! Every connected path of a small picture, and the one that is the seam. Of
//! the reference it uses the names of kinds, axes and methods alone.

use crate::pictures::channels;
use reference::{Axis, EnergyRule, Method, Size};
use std::cmp::{Ordering, Reverse};

/// A pixel by its row and column.
type Position = (usize, usize);

/// A picture, so small that all its paths can be listed. Its lines are the
/// rows for vertical seams and the columns for horizontal ones; a path has a
/// place in each line, listed from the first line.
pub struct Small<'a> {
    pub bytes: &'a [u8],
    /// A mark for each pixel, or no marks at all: every pixel is plain then.
    pub marks: &'a [u8],
    pub size: Size,
    pub method: Method,
    pub axis: Axis,
}

impl Small<'_> {
    /// Of the paths that meet no protected pixel the one with the most pixels
    /// marked 2, then the least cost; and that cost. Of equals it is the one
    /// whose places, read from the last line back, come first in dictionary
    /// order.
    pub fn seam(&self) -> Option<(Vec<usize>, u64)> {
        let order = |path: &Vec<usize>| (self.rank(path), backward(path));
        let allowed = |path: &Vec<usize>| self.count(path, 1) == 0;
        let seam = self.paths().into_iter().filter(allowed).min_by_key(order)?;
        let cost = self.cost(&seam);
        Some((seam, cost))
    }

    /// What is compared of two allowed paths ahead of their places.
    pub fn rank(&self, path: &[usize]) -> (Reverse<usize>, u64) {
        (Reverse(self.count(path, 2)), self.cost(path))
    }

    pub fn paths(&self) -> Vec<Vec<usize>> {
        let mut paths: Vec<_> = (0..self.places()).map(|place| vec![place]).collect();
        for _ in 1..self.lines() {
            let longer = |path: &Vec<usize>| longer(path, self.places());
            paths = paths.iter().flat_map(longer).collect();
        }
        paths
    }

    /// What a path costs.
    pub fn cost(&self, path: &[usize]) -> u64 {
        self.cost_by(path, |line, place, from| self.pixel_cost(line, place, from))
    }

    /// The sum of what the pixels of a path cost, each given by its line, its
    /// place there and the path's place in the line before, if there is one.
    pub fn cost_by(
        &self,
        path: &[usize],
        pixel_cost: impl Fn(usize, usize, Option<usize>) -> u64,
    ) -> u64 {
        let before = |line: usize| line.checked_sub(1).map(|before| path[before]);
        let pixels = path.iter().enumerate();
        pixels
            .map(|(line, place)| pixel_cost(line, *place, before(line)))
            .sum()
    }

    /// How many pixels on a path have this mark, 1 or 2.
    pub fn count(&self, path: &[usize], mark: u8) -> usize {
        let marked = |(row, column): &(usize, usize)| {
            let place = row * self.size.width + column;
            self.marks.get(place) == Some(&mark)
        };
        self.pixels(path).filter(marked).count()
    }

    /// The row and column of each pixel on a path.
    pub fn pixels<'a>(&self, path: &'a [usize]) -> impl Iterator<Item = (usize, usize)> + 'a {
        let axis = self.axis;
        let pixels = path.iter().enumerate();
        pixels.map(move |(line, place)| row_and_column(axis, line, *place))
    }

    /// The picture's bytes after a path is cut.
    pub fn without(&self, path: &[usize]) -> Vec<u8> {
        self.closed_up(self.bytes, channels(self.size.kind), path)
    }

    /// The marks after a path is cut.
    pub fn marks_without(&self, path: &[usize]) -> Vec<u8> {
        if self.marks.is_empty() {
            return Vec::new();
        }
        self.closed_up(self.marks, 1, path)
    }

    /// A buffer with so many bytes a pixel after a path is cut: the rows that
    /// are left, packed, and 0 for each byte that is free.
    fn closed_up(&self, buffer: &[u8], channels: usize, path: &[usize]) -> Vec<u8> {
        let Size { width, height, .. } = self.size;
        let pixel = |row, column| pixel(buffer, row * width + column, channels);
        let (columns, rows) = match self.axis {
            Axis::Vertical => (width - 1, height),
            Axis::Horizontal => (width, height - 1),
        };
        let mut bytes = Vec::new();
        for row in 0..rows {
            for column in 0..columns {
                bytes.extend_from_slice(match self.axis {
                    Axis::Vertical => pixel(row, stood(column, path[row])),
                    Axis::Horizontal => pixel(stood(row, path[column]), column),
                });
            }
        }
        bytes.resize(buffer.len(), 0);
        bytes
    }

    fn lines(&self) -> usize {
        match self.axis {
            Axis::Vertical => self.size.height,
            Axis::Horizontal => self.size.width,
        }
    }

    /// Places of a line.
    pub fn places(&self) -> usize {
        match self.axis {
            Axis::Vertical => self.size.width,
            Axis::Horizontal => self.size.height,
        }
    }

    fn pixel_cost(&self, line: usize, place: usize, from: Option<usize>) -> u64 {
        if self.method.energy == EnergyRule::Forward {
            let meeting = self.meeting(line, place, from);
            return meeting
                .into_iter()
                .map(|[one, other]| self.apart(one, other))
                .sum();
        }
        let (row, column) = self.at(line, place);
        self.energy(row, column)
    }

    /// The pixels, each by its row and column, that come to stand beside each other
    /// where a path's pixel is taken out: its neighbours in the line; and where the
    /// path came from a side, the pixel in the line before and the neighbour on that
    /// side.
    pub fn meeting(&self, line: usize, place: usize, from: Option<usize>) -> Vec<[Position; 2]> {
        let [before, after] = self.sides(line, place);
        let mut pairs = vec![[before, after]];
        let Some(from) = from else { return pairs };
        let above = self.at(line - 1, place);
        match from.cmp(&place) {
            Ordering::Less => pairs.push([above, before]),
            Ordering::Equal => {}
            Ordering::Greater => pairs.push([above, after]),
        }
        pairs
    }

    /// The neighbours of a pixel in its line; past the ends the pixel itself.
    pub fn sides(&self, line: usize, place: usize) -> [Position; 2] {
        let last = self.places() - 1;
        [place.saturating_sub(1), last.min(place + 1)].map(|side| self.at(line, side))
    }

    /// The row and column of a place of a line.
    pub fn at(&self, line: usize, place: usize) -> Position {
        row_and_column(self.axis, line, place)
    }

    fn energy(&self, row: usize, column: usize) -> u64 {
        let others = neighbours(self.size, self.method, row, column);
        self.differences(row, column, &others)
    }

    /// How far a pixel is from these, each given by its row and column.
    pub fn differences(&self, row: usize, column: usize, others: &[(usize, usize)]) -> u64 {
        let others = others.iter();
        others.map(|other| self.apart(*other, (row, column))).sum()
    }

    /// The absolute differences of two pixels' samples, added.
    pub fn apart(&self, one: Position, other: Position) -> u64 {
        let pairs = self.pixel(one).iter().zip(self.pixel(other));
        pairs.map(|(a, b)| u64::from(a.abs_diff(*b))).sum()
    }

    fn pixel(&self, (row, column): Position) -> &[u8] {
        let place = row * self.size.width + column;
        pixel(self.bytes, place, channels(self.size.kind))
    }
}

fn row_and_column(axis: Axis, line: usize, place: usize) -> Position {
    match axis {
        Axis::Vertical => (line, place),
        Axis::Horizontal => (place, line),
    }
}

/// The bytes of the pixel at a place of a buffer with so many bytes a pixel.
fn pixel(buffer: &[u8], place: usize, channels: usize) -> &[u8] {
    &buffer[place * channels..(place + 1) * channels]
}

/// By `edge` and `flat`, the two pixels that a pixel is held against.
pub fn neighbours(size: Size, method: Method, row: usize, column: usize) -> [Position; 2] {
    let beside = held_against(method, column, size.width);
    let below = held_against(method, row, size.height);
    [(row, beside), (below, column)]
}

/// The column (or row), of `count`, whose pixel the one at a place is held
/// against: the next. For the last one it is by `edge` the one before it, where
/// there is one; else its own, from which it doesn't differ.
fn held_against(method: Method, place: usize, count: usize) -> usize {
    let next = place + 1;
    if next < count {
        next
    } else if method.energy == EnergyRule::Edge {
        place.saturating_sub(1)
    } else {
        place
    }
}

/// The path and one place more: each that is connected with the last.
fn longer(path: &[usize], places: usize) -> Vec<Vec<usize>> {
    let last = path[path.len() - 1];
    let next = (0..places).filter(|place| place.abs_diff(last) <= 1);
    next.map(|place| [path, &[place]].concat()).collect()
}

pub fn backward(path: &[usize]) -> Vec<usize> {
    path.iter().rev().copied().collect()
}

/// Where in its line the pixel stood that closed up to this place.
fn stood(place: usize, cut: usize) -> usize {
    if place < cut {
        place
    } else {
        place + 1
    }
}

#[cfg(test)]
mod tests {
    use super::*;
    use crate::methods::{EDGE, FLAT, FORWARD};
    use reference::Kind;

    /// A grey picture without marks, by `edge`.
    fn grey(bytes: &[u8], width: usize, axis: Axis) -> Small<'_> {
        let size = Size {
            width,
            height: bytes.len() / width,
            kind: Kind::Grey,
        };
        Small {
            bytes,
            marks: &[],
            size,
            method: EDGE,
            axis,
        }
    }

    /// The seam of the worked picture, 10 10 40 and 10 50 40, by these marks.
    fn marked(marks: &[u8; 6], axis: Axis) -> Option<(Vec<usize>, u64)> {
        let picture = grey(&[10, 10, 40, 10, 50, 40], 3, axis);
        Small { marks, ..picture }.seam()
    }

    #[test]
    fn paths_are_connected_and_all_there() {
        let picture = grey(&[0; 6], 3, Axis::Vertical);
        let paths = [[0, 0], [0, 1], [1, 0], [1, 1], [1, 2], [2, 1], [2, 2]];
        assert_eq!(picture.paths(), paths.map(Vec::from));
        let turned = grey(&[0; 6], 2, Axis::Horizontal);
        assert_eq!(turned.paths(), picture.paths());
        assert_eq!(grey(&[0; 16], 4, Axis::Vertical).paths().len(), 68);
    }

    #[test]
    fn seams_of_the_worked_picture() {
        let picture = grey(&[10, 10, 40, 10, 50, 40], 3, Axis::Vertical);
        assert_eq!(picture.seam(), Some((vec![0, 0], 40)));
        assert_eq!(picture.without(&[0, 0]), [10, 40, 50, 40, 0, 0]);
        let left = grey(&[10, 40, 50, 40], 2, Axis::Vertical);
        assert_eq!(left.seam(), Some((vec![1, 1], 40)));
        assert_eq!(left.without(&[1, 1]), [10, 50, 0, 0]);
        assert_eq!(left.without(&[0, 1]), [40, 50, 0, 0]);
    }

    #[test]
    fn seams_of_the_worked_picture_by_flat() {
        let by_flat = |bytes, width, axis| {
            let method = FLAT;
            let picture = grey(bytes, width, axis);
            Small { method, ..picture }.seam()
        };
        let worked = [10, 10, 40, 10, 50, 40];
        let (vertical, horizontal) = (Axis::Vertical, Axis::Horizontal);
        assert_eq!(by_flat(&worked, 3, vertical), Some((vec![2, 2], 0)));
        assert_eq!(by_flat(&worked, 3, horizontal), Some((vec![0, 1, 0], 10)));
        let left = [10, 10, 10, 50];
        assert_eq!(by_flat(&left, 2, vertical), Some((vec![0, 1], 0)));
    }

    #[test]
    fn seams_of_the_worked_picture_by_forward() {
        let by_forward = |bytes, width, axis| {
            let method = FORWARD;
            let picture = grey(bytes, width, axis);
            Small { method, ..picture }
        };
        let worked = [10, 10, 40, 10, 50, 40];
        let (vertical, horizontal) = (Axis::Vertical, Axis::Horizontal);
        let picture = by_forward(&worked, 3, vertical);
        assert_eq!(picture.seam(), Some((vec![0, 1], 30)));
        // Each path: what its pixel of row 0 costs, and its step.
        for (path, cost) in [
            ([0, 0], 40),
            ([1, 0], 30 + 80),
            ([0, 1], 30),
            ([1, 1], 30 + 30),
            ([2, 1], 30 + 60),
            ([1, 2], 30 + 20),
            ([2, 2], 30 + 10),
        ] {
            assert_eq!(picture.cost(&path), cost, "{path:?}");
        }
        let turned = by_forward(&worked, 3, horizontal);
        assert_eq!(turned.seam(), Some((vec![0, 0, 0], 40)));
        let left = by_forward(&[10, 40, 10, 40], 2, vertical);
        assert_eq!(left.seam(), Some((vec![0, 0], 60)));
        let marks = &[1, 0, 0, 0, 0, 2];
        let marked = Small { marks, ..picture };
        assert_eq!(marked.seam(), Some((vec![2, 2], 40)));
    }

    /// A single column has no neighbours that meet, and no step aside.
    #[test]
    fn one_column_by_forward() {
        let method = FORWARD;
        let picture = grey(&[5, 9, 2], 1, Axis::Vertical);
        let picture = Small { method, ..picture };
        assert_eq!(picture.seam(), Some((vec![0, 0, 0], 0)));
    }

    #[test]
    fn horizontal_seams_are_vertical_ones_of_the_exchanged_picture() {
        let turned = grey(&[10, 10, 10, 50, 40, 40], 2, Axis::Horizontal);
        assert_eq!(turned.seam(), Some((vec![0, 0], 40)));
        assert_eq!(turned.without(&[0, 0]), [10, 50, 40, 40, 0, 0]);
        assert_eq!(turned.without(&[2, 2]), [10, 10, 10, 50, 0, 0]);
        assert_eq!(turned.without(&[0, 1]), [10, 10, 40, 40, 0, 0]);
    }

    #[test]
    fn equals_are_ordered_from_the_last_line() {
        // All energies are 0, so every path is as cheap.
        assert_eq!(
            grey(&[7; 9], 3, Axis::Vertical).seam(),
            Some((vec![0, 0, 0], 0))
        );
        // All energies are 0 but the first: of the 17 paths the 5 that begin
        // there are dearer, and the others are as cheap.
        let picture = grey(&[9, 5, 5, 5, 5, 5, 5, 5, 5], 3, Axis::Vertical);
        let cheapest = |path: &&Vec<usize>| picture.cost(path) == 0;
        assert_eq!(picture.paths().iter().filter(cheapest).count(), 12);
        assert_eq!(picture.seam(), Some((vec![1, 0, 0], 0)));
    }

    /// The energies of a picture, row by row.
    fn energies(bytes: &[u8], width: usize, method: Method) -> Vec<u64> {
        let picture = grey(bytes, width, Axis::Vertical);
        let picture = Small { method, ..picture };
        let places = 0..bytes.len();
        places
            .map(|place| picture.energy(place / width, place % width))
            .collect()
    }

    #[test]
    fn energies_at_the_edges() {
        let worked = [10, 10, 40, 10, 50, 40];
        assert_eq!(energies(&worked, 3, EDGE), [0, 70, 30, 40, 50, 10]);
        assert_eq!(energies(&worked, 3, FLAT), [0, 70, 0, 40, 10, 0]);
        // A row, a column, a single pixel.
        for width in [3, 1] {
            assert_eq!(energies(&[5, 9, 2], width, EDGE), [4, 7, 7]);
            assert_eq!(energies(&[5, 9, 2], width, FLAT), [4, 7, 0]);
        }
        assert_eq!(energies(&[5], 1, EDGE), [0]);
        assert_eq!(energies(&[5], 1, FLAT), [0]);
        // Across 3 3 and 7 7, down 8 2 twice.
        assert_eq!(energies(&[1, 4, 9, 2], 2, EDGE), [11, 5, 15, 9]);
        // Across 3 0 and 7 0, down 8 2 and 0 0.
        assert_eq!(energies(&[1, 4, 9, 2], 2, FLAT), [11, 2, 7, 0]);
    }

    #[test]
    fn energies_of_rgb_add_the_channels() {
        let size = Size {
            width: 2,
            height: 1,
            kind: Kind::Rgb,
        };
        let picture = Small {
            bytes: &[1, 2, 3, 5, 0, 9],
            marks: &[],
            size,
            method: EDGE,
            axis: Axis::Horizontal,
        };
        // Each of the two is held against the other; by `flat` the first alone.
        assert_eq!(picture.seam(), Some((vec![0, 0], 2 * (4 + 2 + 6))));
        let picture = Small {
            method: FLAT,
            ..picture
        };
        assert_eq!(picture.seam(), Some((vec![0, 0], 4 + 2 + 6)));
        // A single row: by `forward` each has no other above or below it.
        let picture = Small {
            method: FORWARD,
            ..picture
        };
        assert_eq!(picture.seam(), Some((vec![0, 0], 0)));
        let picture = Small {
            axis: Axis::Vertical,
            ..picture
        };
        assert_eq!(picture.seam(), Some((vec![0], 4 + 2 + 6)));
    }

    /// The energies are 0 70 30 and 40 50 10.
    #[test]
    fn marks_come_ahead_of_the_cost() {
        let marked = |marks| marked(marks, Axis::Vertical);
        assert_eq!(marked(&[0; 6]), Some((vec![0, 0], 40)));
        // A protected pixel is not touched.
        assert_eq!(marked(&[1, 0, 0, 0, 0, 0]), Some((vec![2, 2], 40)));
        assert_eq!(marked(&[1, 0, 0, 0, 0, 1]), Some((vec![2, 1], 80)));
        assert_eq!(marked(&[0, 0, 0, 1, 1, 1]), None);
        assert_eq!(marked(&[0, 1, 1, 1, 0, 0]), Some((vec![0, 1], 50)));
        assert_eq!(marked(&[0, 1, 1, 1, 1, 0]), None);
        // The most pixels to be removed, whatever they cost.
        assert_eq!(marked(&[0, 2, 0, 2, 0, 0]), Some((vec![1, 0], 110)));
        // Of as many the least cost, and of equals the first from below.
        assert_eq!(marked(&[0, 0, 0, 0, 2, 0]), Some((vec![0, 1], 50)));
        assert_eq!(marked(&[0, 2, 2, 0, 0, 0]), Some((vec![2, 2], 40)));
        assert_eq!(marked(&[2, 0, 2, 0, 0, 0]), Some((vec![0, 0], 40)));
        assert_eq!(marked(&[2, 0, 2, 0, 2, 0]), Some((vec![0, 1], 50)));
    }

    #[test]
    fn marks_turn_and_are_cut_with_the_picture() {
        let axis = Axis::Horizontal;
        assert_eq!(marked(&[0, 1, 0, 0, 1, 0], axis), None);
        assert_eq!(
            marked(&[0, 0, 2, 2, 2, 0], axis),
            Some((vec![1, 1, 0], 120))
        );
        let picture = Small {
            marks: &[0, 1, 2, 2, 1, 0],
            ..grey(&[10, 10, 40, 10, 50, 40], 3, axis)
        };
        assert_eq!(picture.marks_without(&[1, 1, 0]), [0, 1, 0, 0, 0, 0]);
        let vertical = Axis::Vertical;
        let picture = Small {
            axis: vertical,
            ..picture
        };
        assert_eq!(picture.marks_without(&[0, 1]), [1, 2, 2, 0, 0, 0]);
        let plain = grey(&[1, 2, 3, 4], 2, vertical);
        assert!(plain.marks_without(&[0, 0]).is_empty());
    }

    #[test]
    fn rgb_marks_have_a_byte_a_pixel() {
        let picture = Small {
            bytes: &[1, 2, 3, 5, 0, 9],
            marks: &[0, 2],
            size: Size {
                width: 2,
                height: 1,
                kind: Kind::Rgb,
            },
            method: EDGE,
            axis: Axis::Vertical,
        };
        assert_eq!(picture.seam(), Some((vec![1], 4 + 2 + 6)));
        assert_eq!(picture.without(&[1]), [1, 2, 3, 0, 0, 0]);
        assert_eq!(picture.marks_without(&[1]), [0, 0]);
    }
}
