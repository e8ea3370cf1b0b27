//! PNGs of every sort, written as plainly as the specification allows.

/// What is made.
#[derive(Clone, Copy, Debug)]
pub struct Sort {
    pub width: usize,
    pub height: usize,
    pub depth: usize,
    pub colour: u8,
    pub interlaced: bool,
}

impl Sort {
    pub fn channels(self) -> usize {
        if self.colour == 2 {
            3
        } else {
            1
        }
    }

    /// The largest number of a sample.
    pub fn largest(self) -> usize {
        (1 << self.depth) - 1
    }

    /// A number for each sample, with all of them somewhere in a large picture.
    pub fn numbers(self) -> Vec<u8> {
        let count = self.width * self.height * self.channels();
        let number = |at: usize| (at * 7 + at / 5 * 3 + at * at / 11) % (self.largest() + 1);
        (0..count).map(|at| number(at) as u8).collect()
    }

    /// The samples that these numbers stand for.
    pub fn samples(self) -> Vec<u8> {
        let numbers = self.numbers().into_iter();
        let grey = |number: u8| (usize::from(number) * 255 / self.largest()) as u8;
        match self.colour {
            3 => numbers.flat_map(colour).collect(),
            _ => numbers.map(grey).collect(),
        }
    }
}

/// All sorts that are read, each at several sizes.
pub fn sorts() -> Vec<Sort> {
    let kinds = [0, 3]
        .into_iter()
        .flat_map(|colour| [1, 2, 4, 8].map(|depth| (colour, depth)));
    let kinds: Vec<(u8, usize)> = kinds.chain([(2, 8)]).collect();
    let sides = [(1, 1), (2, 3), (5, 1), (1, 5), (8, 8), (9, 7), (33, 17)];
    let mut sorts = Vec::new();
    for (colour, depth) in kinds {
        for (width, height) in sides {
            for interlaced in [false, true] {
                sorts.push(Sort {
                    width,
                    height,
                    depth,
                    colour,
                    interlaced,
                });
            }
        }
    }
    sorts
}

/// The colour of a number in the palette.
pub fn colour(number: u8) -> [u8; 3] {
    [number, number.wrapping_mul(3), 255 - number]
}

/// The PNG of a sort, with a palette where it has one.
pub fn made(sort: Sort) -> Vec<u8> {
    let mut file = b"\x89PNG\r\n\x1a\n".to_vec();
    file.extend(part(b"IHDR", &head(sort)));
    // A part that may be left out, as other tools write them.
    file.extend(part(b"tEXt", b"Comment\0made for a test"));
    if sort.colour == 3 {
        let colours = (0..=sort.largest()).flat_map(|number| colour(number as u8));
        file.extend(part(b"PLTE", &colours.collect::<Vec<u8>>()));
    }
    // The stream is cut into parts anywhere.
    for piece in stream(&lines(sort)).chunks(50) {
        file.extend(part(b"IDAT", piece));
    }
    file.extend(part(b"IEND", b""));
    file
}

pub fn head(sort: Sort) -> Vec<u8> {
    let side = |side: usize| (side as u32).to_be_bytes();
    let rest = [
        sort.depth as u8,
        sort.colour,
        0,
        0,
        u8::from(sort.interlaced),
    ];
    [&side(sort.width)[..], &side(sort.height), &rest].concat()
}

/// A part of the file with its length and its checksum.
pub fn part(name: &[u8; 4], bytes: &[u8]) -> Vec<u8> {
    let named = [name, bytes].concat();
    let length = (bytes.len() as u32).to_be_bytes();
    [&length[..], &named, &crc(&named).to_be_bytes()].concat()
}

/// CRC-32 bit by bit.
pub fn crc(bytes: &[u8]) -> u32 {
    let mut sum = !0u32;
    for byte in bytes {
        sum ^= u32::from(*byte);
        for _ in 0..8 {
            sum = (sum >> 1) ^ ((sum & 1) * 0xedb8_8320);
        }
    }
    !sum
}

/// A zlib stream of stored blocks.
pub fn stream(bytes: &[u8]) -> Vec<u8> {
    let mut stream = vec![0x78, 0x01];
    let last = bytes.len().div_ceil(100) - 1;
    for (at, block) in bytes.chunks(100).enumerate() {
        let count = block.len() as u16;
        stream.push(u8::from(at == last));
        stream.extend(count.to_le_bytes());
        stream.extend((!count).to_le_bytes());
        stream.extend(block);
    }
    let (mut low, mut high) = (1u32, 0u32);
    for byte in bytes {
        low = (low + u32::from(*byte)) % 65521;
        high = (high + low) % 65521;
    }
    stream.extend((high << 16 | low).to_be_bytes());
    stream
}

/// The pass of each pixel of 8 by 8 where a picture is interlaced.
const PATTERN: [&[u8; 8]; 8] = [
    b"16462646",
    b"77777777",
    b"56565656",
    b"77777777",
    b"36463646",
    b"77777777",
    b"56565656",
    b"77777777",
];

/// The rows of all passes, each after the number of its filter: all filters in turn.
fn lines(sort: Sort) -> Vec<u8> {
    let numbers = sort.numbers();
    let passes = if sort.interlaced {
        b"1234567".as_slice()
    } else {
        b"0"
    };
    let mut lines = Vec::new();
    for pass in passes {
        let mut above = Vec::new();
        for row in 0..sort.height {
            let own = |column: &usize| *pass == b'0' || PATTERN[row % 8][*column % 8] == *pass;
            let columns: Vec<usize> = (0..sort.width).filter(own).collect();
            if columns.is_empty() {
                continue;
            }
            let samples = columns.iter().flat_map(|column| {
                let place = (row * sort.width + column) * sort.channels();
                numbers[place..place + sort.channels()].to_vec()
            });
            let line = packed(&samples.collect::<Vec<u8>>(), sort.depth);
            above.resize(line.len(), 0);
            lines.push((row % 5) as u8);
            lines.extend(filtered(row % 5, &line, &above, sort.channels()));
            above = line;
        }
    }
    lines
}

/// Samples of few bits in bytes, the first one highest.
fn packed(samples: &[u8], depth: usize) -> Vec<u8> {
    let byte = |samples: &[u8]| {
        let bits = samples.iter().enumerate();
        bits.map(|(at, sample)| sample << (8 - depth * (at + 1)))
            .sum()
    };
    samples.chunks(8 / depth).map(byte).collect()
}

fn filtered(filter: usize, line: &[u8], above: &[u8], back: usize) -> Vec<u8> {
    let difference = |at: usize| {
        let left = if at < back {
            0
        } else {
            i32::from(line[at - back])
        };
        let corner = if at < back {
            0
        } else {
            i32::from(above[at - back])
        };
        let up = i32::from(above[at]);
        let guess = match filter {
            0 => 0,
            1 => left,
            2 => up,
            3 => (left + up) / 2,
            _ => {
                let aim = left + up - corner;
                let far = |sample: i32| (aim - sample).abs();
                if far(left) <= far(up) && far(left) <= far(corner) {
                    left
                } else if far(up) <= far(corner) {
                    up
                } else {
                    corner
                }
            }
        };
        line[at].wrapping_sub(guess as u8)
    };
    (0..line.len()).map(difference).collect()
}
