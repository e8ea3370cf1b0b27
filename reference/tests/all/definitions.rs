//! The specification's definitions, worked out directly on lent bytes by
//! trying all connected paths. Nothing here is shared with the library but
//! the types `Size`, `Kind`, `Axis` and `Method`.

use reference::{Axis, EnergyRule, Kind, Method, Size};

pub fn size(width: usize, height: usize, kind: Kind) -> Size {
    Size {
        width,
        height,
        kind,
    }
}

pub fn channels(kind: Kind) -> usize {
    if kind == Kind::Grey {
        1
    } else {
        3
    }
}

pub fn byte_count(size: Size) -> usize {
    size.width * size.height * channels(size.kind)
}

/// The sample of channel c of the pixel in row i and column j.
fn sample(picture: &[u8], size: Size, i: usize, j: usize, c: usize) -> i64 {
    i64::from(picture[(i * size.width + j) * channels(size.kind) + c])
}

/// The absolute differences of two pixels, each given by its row and column,
/// over all channels.
fn apart(picture: &[u8], size: Size, one: (usize, usize), other: (usize, usize)) -> i64 {
    let at = |(i, j), c| sample(picture, size, i, j, c);
    (0..channels(size.kind))
        .map(|c| (at(one, c) - at(other, c)).abs())
        .sum()
}

/// What a path along the axis pays for the pixel at a place of a line. `from` is
/// its place in the line before, if there is one. The picture is not exchanged.
pub fn pixel_cost(
    picture: &[u8],
    size: Size,
    method: Method,
    axis: Axis,
    (line, place): (usize, usize),
    from: Option<usize>,
) -> u64 {
    let at = |line, place| pixel_at(axis, line, place);
    if method.energy != EnergyRule::Forward {
        let (i, j) = at(line, place);
        return energy(picture, size, method, i, j);
    }
    let (_, breadth) = extent(size, axis);
    let before = at(line, place.max(1) - 1);
    let after = at(line, (place + 1).min(breadth - 1));
    let mut sum = apart(picture, size, before, after);
    // A path that comes from the side joins the pixel above to the one left or
    // right on that side.
    if let Some(from) = from.filter(|from| *from != place) {
        let side = if from < place { before } else { after };
        sum += apart(picture, size, at(line - 1, place), side);
    }
    sum as u64
}

/// The row and the column of a place of a line.
pub fn pixel_at(axis: Axis, line: usize, place: usize) -> (usize, usize) {
    match axis {
        Axis::Vertical => (line, place),
        Axis::Horizontal => (place, line),
    }
}

/// What a path costs, by what a place of a line costs that is come to from a
/// place. The path's first entry is that of the last line.
pub fn path_cost(path: &[usize], pixel_cost: impl Fn((usize, usize), Option<usize>) -> u64) -> u64 {
    let mut sum = 0;
    let mut from = None;
    for (line, place) in path.iter().rev().enumerate() {
        sum += pixel_cost((line, *place), from);
        from = Some(*place);
    }
    sum
}

/// By `Edge` and `Flat`: the differences within two pairs of neighbours, one in
/// the row and one in the column.
fn energy(picture: &[u8], size: Size, method: Method, i: usize, j: usize) -> u64 {
    let mut sum = 0;
    if let Some(left) = pair(method, j, size.width) {
        sum += apart(picture, size, (i, left), (i, left + 1));
    }
    if let Some(upper) = pair(method, i, size.height) {
        sum += apart(picture, size, (upper, j), (upper + 1, j));
    }
    sum as u64
}

/// The pair of neighbours, by its first place of `count`, that counts at a
/// place: the pair that begins there. At the last place, where none begins, by
/// `Edge` it is the pair that ends there, and by `Flat` there is none. A row or
/// a column of one pixel has no pair.
fn pair(method: Method, place: usize, count: usize) -> Option<usize> {
    let mut pairs = 0..count - 1;
    if method.energy == EnergyRule::Edge {
        pairs.rfind(|first| *first <= place)
    } else {
        pairs.find(|first| *first == place)
    }
}

/// Every connected path over `length` lines with `breadth` places each, in
/// dictionary order, the first entry being that of the last line.
pub fn paths(length: usize, breadth: usize) -> Vec<Vec<usize>> {
    let mut all: Vec<Vec<usize>> = (0..breadth).map(|place| vec![place]).collect();
    for _ in 1..length {
        let mut longer = Vec::new();
        for path in all {
            for place in 0..breadth {
                if path[path.len() - 1].abs_diff(place) <= 1 {
                    let mut path = path.clone();
                    path.push(place);
                    longer.push(path);
                }
            }
        }
        all = longer;
    }
    all
}

/// The lines that a path along the axis runs over, and the places of each.
pub fn extent(size: Size, axis: Axis) -> (usize, usize) {
    match axis {
        Axis::Vertical => (size.height, size.width),
        Axis::Horizontal => (size.width, size.height),
    }
}

/// The seam by trial of all paths: its lines from the top (from the left) and
/// its cost, or none when each path meets a protected pixel. The picture is
/// not exchanged: a horizontal path is laid on the picture as it stands.
pub fn seam(
    picture: &[u8],
    marks: &[u8],
    size: Size,
    method: Method,
    axis: Axis,
) -> Option<(Vec<u16>, u64)> {
    let (length, breadth) = extent(size, axis);
    let mut best: Option<(Vec<usize>, usize, u64)> = None;
    'paths: for path in paths(length, breadth) {
        let mut removed = 0;
        for (line, place) in path.iter().rev().enumerate() {
            let (i, j) = pixel_at(axis, line, *place);
            match marks[i * size.width + j] {
                0 => {}
                1 => continue 'paths,
                _ => removed += 1,
            }
        }
        let cost = path_cost(&path, |at, from| {
            pixel_cost(picture, size, method, axis, at, from)
        });
        // The paths come in dictionary order, so a later one is taken only
        // when it is better.
        let take = match &best {
            None => true,
            Some((_, most, least)) => removed > *most || (removed == *most && cost < *least),
        };
        if take {
            best = Some((path, removed, cost));
        }
    }
    let (path, _, cost) = best?;
    Some((path.iter().rev().map(|place| *place as u16).collect(), cost))
}

/// The seam of a picture without marks.
pub fn plain_seam(picture: &[u8], size: Size, method: Method, axis: Axis) -> (Vec<u16>, u64) {
    let marks = vec![0; size.width * size.height];
    seam(picture, &marks, size, method, axis).unwrap()
}

/// The size after one cut.
pub fn size_after_cut(size: Size, axis: Axis) -> Size {
    match axis {
        Axis::Vertical => Size {
            width: size.width - 1,
            ..size
        },
        Axis::Horizontal => Size {
            height: size.height - 1,
            ..size
        },
    }
}

/// The entries left after a cut, packed. An entry is `bytes` bytes long: a
/// pixel or a mark. The freed bytes are left out.
pub fn after_cut(buffer: &[u8], size: Size, bytes: usize, axis: Axis, seam: &[u16]) -> Vec<u8> {
    let left = size_after_cut(size, axis);
    let mut kept = Vec::new();
    for i in 0..left.height {
        for j in 0..left.width {
            // The entry that closes up to row i and column j.
            let (from_i, from_j) = match axis {
                Axis::Vertical => (i, j + usize::from(j >= usize::from(seam[i]))),
                Axis::Horizontal => (i + usize::from(i >= usize::from(seam[j])), j),
            };
            let start = (from_i * size.width + from_j) * bytes;
            kept.extend_from_slice(&buffer[start..start + bytes]);
        }
    }
    kept
}

/// The bytes with zeros after them up to a length.
pub fn padded(mut bytes: Vec<u8>, length: usize) -> Vec<u8> {
    bytes.resize(length, 0);
    bytes
}

/// The map of the first `depth` seams, row by row, by trial of all paths.
pub fn map(picture: &[u8], size: Size, method: Method, depth: usize) -> Vec<u16> {
    let mut map = vec![0; size.width * size.height];
    for number in 1..=depth {
        let left = left_after(picture, &map, size);
        let left_size = Size {
            width: size.width - (number - 1),
            ..size
        };
        let (columns, _) = plain_seam(&left, left_size, method, Axis::Vertical);
        for i in 0..size.height {
            // The pixel without a number that stands at that place.
            let mut place = 0;
            for j in 0..size.width {
                if map[i * size.width + j] == 0 {
                    if place == columns[i] {
                        map[i * size.width + j] = number as u16;
                        break;
                    }
                    place += 1;
                }
            }
        }
    }
    map
}

/// The pixels without a number so far.
fn left_after(picture: &[u8], map: &[u16], size: Size) -> Vec<u8> {
    let bytes = channels(size.kind);
    let mut left = Vec::new();
    for (pixel, number) in picture.chunks(bytes).zip(map) {
        if *number == 0 {
            left.extend_from_slice(pixel);
        }
    }
    left
}

/// The lines of a file ahead of its rows.
fn head(size: Size, method: Method, depth: usize, growth: usize) -> String {
    let kind = if size.kind == Kind::Grey {
        "grey"
    } else {
        "rgb"
    };
    let energy = match method.energy {
        EnergyRule::Edge => "edge",
        EnergyRule::Flat => "flat",
        EnergyRule::Forward => "forward",
    };
    format!(
        "(multi\n(size {} {} {kind})\n(range {depth} {growth})\n(energy {energy})\n",
        size.width, size.height
    )
}

/// The text of a file.
pub fn text(
    picture: &[u8],
    map: &[u16],
    size: Size,
    method: Method,
    depth: usize,
    growth: usize,
) -> String {
    let mut text = head(size, method, depth, growth);
    for row in picture.chunks(size.width * channels(size.kind)) {
        text.push_str("(row");
        for pixel in row.chunks(channels(size.kind)) {
            match pixel {
                [grey] => text.push_str(&format!(" {grey}")),
                [red, green, blue] => text.push_str(&format!(" ({red} {green} {blue})")),
                _ => unreachable!(),
            }
        }
        text.push_str(")\n");
    }
    for row in map.chunks(size.width) {
        text.push_str("(map");
        for number in row {
            text.push_str(&format!(" {number}"));
        }
        text.push_str(")\n");
    }
    text.push_str(")\n");
    text
}

/// The picture at width m+u. Each pixel and each new pixel gets a place, and
/// the row is put in the order of the places: pixel j at 4j, its new pixel at
/// 4j+2, in the last column at 4j−1.
pub fn wider(picture: &[u8], map: &[u16], size: Size, u: usize) -> Vec<u8> {
    let mut shown = Vec::new();
    for i in 0..size.height {
        let mut row: Vec<(usize, Vec<u8>)> = Vec::new();
        for j in 0..size.width {
            row.push((4 * j, blend(picture, size, i, j, j)));
            let number = usize::from(map[i * size.width + j]);
            if number == 0 || number > u {
                continue;
            }
            if j + 1 < size.width {
                row.push((4 * j + 2, blend(picture, size, i, j, j + 1)));
            } else {
                row.push((4 * j - 1, blend(picture, size, i, j, j - 1)));
            }
        }
        row.sort();
        for (_, pixel) in row {
            shown.extend_from_slice(&pixel);
        }
    }
    shown
}

/// Half the sum of two pixels of a row, rounded down per channel.
fn blend(picture: &[u8], size: Size, i: usize, j: usize, other: usize) -> Vec<u8> {
    (0..channels(size.kind))
        .map(|c| (sample(picture, size, i, j, c) + sample(picture, size, i, other, c)) / 2)
        .map(|half| half as u8)
        .collect()
}
