//! The filters of PNG: a row is written as its differences from what stands to the
//! left of each byte and above it.

/// The five filters, by their numbers: none, from the left, from above, from the
/// mean of both, from the one nearest to left + above - corner.
const FILTERS: [fn(u8, u8, u8) -> u8; 5] = [
    |_, _, _| 0,
    |left, _, _| left,
    |_, above, _| above,
    |left, above, _| ((u16::from(left) + u16::from(above)) / 2) as u8,
    paeth,
];

/// The rows of samples filtered, each after the number of its filter.
pub fn filtered(samples: &[u8], row: usize, channels: usize) -> Vec<u8> {
    let mut lines = Vec::with_capacity(samples.len() + samples.len() / row);
    let mut above = vec![0; row];
    for line in samples.chunks(row) {
        let ways = (0..5).map(|number| through(number, line, &above, channels));
        let best = ways.min_by_key(|way| weight(&way[1..]));
        lines.extend(best.expect("there are five ways"));
        above.copy_from_slice(line);
    }
    lines
}

/// The row through one filter, after its number. Beyond the edge stand zeros.
fn through(number: u8, line: &[u8], above: &[u8], channels: usize) -> Vec<u8> {
    let guess = FILTERS[usize::from(number)];
    let before = |row: &[u8], at: usize| at.checked_sub(channels).map_or(0, |at| row[at]);
    let difference = |at: usize| {
        let from = guess(before(line, at), above[at], before(above, at));
        line[at].wrapping_sub(from)
    };
    let differences = (0..line.len()).map(difference);
    std::iter::once(number).chain(differences).collect()
}

/// Takes the filter of a row back, so that differences become what they were taken
/// from. Gives nothing where no filter has this number.
pub fn take_back(number: u8, line: &mut [u8], above: &[u8], channels: usize) -> Option<()> {
    let guess = FILTERS.get(usize::from(number))?;
    for at in 0..line.len() {
        let before = |row: &[u8]| at.checked_sub(channels).map_or(0, |at| row[at]);
        let from = guess(before(line), above[at], before(above));
        line[at] = line[at].wrapping_add(from);
    }
    Some(())
}

/// How far the differences are from 0 in sum: the less, the better they compress as
/// a rule.
fn weight(differences: &[u8]) -> u32 {
    let far = |difference: &u8| u32::from((*difference as i8).unsigned_abs());
    differences.iter().map(far).sum()
}

/// The Paeth predictor: of left, above and corner the one nearest to left + above -
/// corner.
fn paeth(left: u8, above: u8, corner: u8) -> u8 {
    let aim = i16::from(left) + i16::from(above) - i16::from(corner);
    let off = |sample: &u8| (aim - i16::from(*sample)).abs();
    // The first of equals.
    let near = [left, above, corner].into_iter().min_by_key(off);
    near.expect("there are three")
}

#[cfg(test)]
mod tests {
    use super::*;

    #[test]
    fn each_filter_by_hand() {
        let (line, above) = ([10, 20, 35], [8, 40, 41]);
        let by = |number| through(number, &line, &above, 1);
        assert_eq!(by(0), [0, 10, 20, 35]);
        assert_eq!(by(1), [1, 10, 10, 15]);
        assert_eq!(by(2), [2, 2, 236, 250]);
        assert_eq!(by(3), [3, 6, 251, 5]);
        // 10 + 40 - 8 is nearest to 40, 20 + 41 - 40 to 20.
        assert_eq!(by(4), [4, 2, 236, 15]);
    }

    #[test]
    fn each_filter_is_taken_back() {
        let (line, above) = ([10, 200, 35, 0, 255, 7], [8, 40, 41, 250, 1, 9]);
        for channels in [1, 3] {
            for number in 0..5 {
                let mut differences = through(number, &line, &above, channels).split_off(1);
                let back = take_back(number, &mut differences, &above, channels);
                assert_eq!((back, differences.as_slice()), (Some(()), line.as_slice()));
            }
        }
        assert_eq!(take_back(5, &mut [0], &[0], 1), None);
    }

    #[test]
    fn a_channel_is_taken_from_its_own() {
        let line = [1, 2, 3, 2, 4, 6];
        assert_eq!(through(1, &line, &[0; 6], 3), [1, 1, 2, 3, 1, 2, 3]);
    }

    #[test]
    fn the_lightest_is_chosen() {
        // The first row rises evenly, the second is the same.
        let samples = [10, 20, 30, 40, 10, 20, 30, 40];
        let lines = filtered(&samples, 4, 1);
        assert_eq!(lines, [1, 10, 10, 10, 10, 2, 0, 0, 0, 0]);
    }

    #[test]
    fn the_first_of_equals_is_predicted() {
        assert_eq!(paeth(5, 5, 5), 5);
        assert_eq!(paeth(10, 20, 15), 15);
        assert_eq!(paeth(10, 0, 5), 5);
        assert_eq!(paeth(255, 255, 0), 255);
    }
}
