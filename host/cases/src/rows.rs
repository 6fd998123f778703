//! Rows to try a packer on: sequences as 01 has them, with places around what 8, 16 and 24 bits
//! hold, and what breaks them.

use crate::Random;

/// The last place that a row can have when it is packed.
const LAST_PLACE: u32 = 16_777_215;

/// Lengths and starts around which a number of so many bits is full.
pub const PLACES: [u32; 17] = [
    0, 1, 2, 127, 128, 254, 255, 256, 257, 65_534, 65_535, 65_536, 65_537, 8_388_608, 16_777_213,
    16_777_214, LAST_PLACE,
];

/// What no packed row can have: past the last place, also where it is what fits once it is cut to
/// 24 bits.
pub const TOO_FAR: [u32; 6] = [
    16_777_216,
    16_777_217,
    0x0100_0100,
    0x7FFF_FFFF,
    0x8000_0000,
    u32::MAX,
];

/// Numbers that are lost where a kind or a detail is cut to 4, 8, 16, 24 or 28 bits.
pub const LOST: [u32; 5] = [1 << 4, 1 << 8, 1 << 16, 1 << 24, 1 << 28];

/// Writes rows as numbers, four each.
pub struct Rows<'a> {
    pub random: &'a mut Random,
    pub out: &'a mut Vec<u32>,
}

impl Rows<'_> {
    /// A sequence of at most `most` preambles, entries, definitions and damaged pieces, after what
    /// is there already.
    pub fn sequence(&mut self, most: usize) {
        for _ in 0..self.random.length(most) {
            match self.random.below(8) {
                0 => self.row(0, 0),
                1..=3 => self.entry(),
                4 | 5 => self.named(8),
                _ => self.damage(),
            }
        }
    }

    fn row(&mut self, kind: u32, detail: u32) {
        let (start, end) = span(self.random);
        self.out.extend([kind, detail, start, end]);
    }

    fn entry(&mut self) {
        (1..=3).for_each(|kind| self.row(kind, 0));
        for _ in 0..self.random.length(5) {
            self.named(4);
        }
    }

    /// A field or a definition: its name, its value and the chunks of that.
    fn named(&mut self, name: u32) {
        self.row(name, 0);
        self.row(5, 0);
        for _ in 0..=self.random.length(4) {
            let kind = 6 + self.random.below(2) as u32;
            self.row(kind, 0);
        }
    }

    fn damage(&mut self) {
        self.row(9, 0);
        let cause = 2 + self.random.below(9) as u32;
        self.row(10, cause);
    }
}

/// A start and an end that a packed row can have. Half of the time the start is an edge, else the
/// length is; the end now and then is the last.
fn span(random: &mut Random) -> (u32, u32) {
    let edge = PLACES[random.below(PLACES.len())];
    let other = match random.below(3) {
        0 => random.below(1 << 24) as u32,
        1 => random.below(1 << 10) as u32,
        _ => PLACES[random.below(PLACES.len())],
    };
    let (start, length) = if random.one_in(2) {
        (edge, other)
    } else {
        (other, edge)
    };
    match random.below(8) {
        0 => (start, LAST_PLACE),
        _ => (start, (start + length).min(LAST_PLACE)),
    }
}

/// Changes rows in one place, mostly so that they are no sequence of 01's any more, or have a
/// number that no row of 01's has.
pub fn break_rows(random: &mut Random, rows: &mut Vec<u32>) {
    let count = rows.len() / 4;
    if count == 0 {
        return rows.resize(random.below(12), 0);
    }
    let at = 4 * random.below(count);
    let row = [rows[at], rows[at + 1], rows[at + 2], rows[at + 3]];
    match random.below(9) {
        0 => drop(rows.drain(at..at + 4)),
        1 => drop(rows.splice(at..at, row)),
        2 => rows[at] = random.below(13) as u32,
        3 => rows[at] ^= LOST[random.below(LOST.len())],
        4 => rows[at + 1] = random.below(16) as u32,
        5 => rows[at + 1] ^= LOST[random.below(LOST.len())],
        6 => break_span(random, &mut rows[at + 2..at + 4]),
        7 => rows.truncate(at + random.below(4)),
        _ => rows.extend([0; 3].iter().take(1 + random.below(3))),
    }
}

/// Puts a start past its end, by one or by more, or an end where no packed row has it.
fn break_span(random: &mut Random, span: &mut [u32]) {
    let far = TOO_FAR[random.below(TOO_FAR.len())];
    match random.below(4) {
        0 => span[0] = span[1].saturating_add(1),
        1 => span.swap(0, 1),
        2 => span[1] = far,
        _ => span.fill(far),
    }
}

/// Changes packed bytes in one place: a byte, a bit, the first byte of a row, the length by some
/// bytes or a row, or a row to one that ends around the last place.
pub fn break_bytes(random: &mut Random, bytes: &mut Vec<u8>) {
    let count = bytes.len() / 7;
    if count == 0 {
        return bytes.resize(random.below(16), 0);
    }
    let (row, any) = (7 * random.below(count), random.below(7 * count));
    match random.below(7) {
        0 => bytes[any] = random.next() as u8,
        1 => bytes[any] ^= 1 << random.below(8),
        2 => bytes[row] = random.next() as u8,
        3 => bytes.truncate(any),
        4 => bytes.resize(bytes.len() + 1 + random.below(8), 0),
        5 => drop(bytes.drain(row..row + 7)),
        _ => end_near_last(random, &mut bytes[row + 1..row + 7]),
    }
}

/// Puts a start and a length whose sum is the last place, or less or more by little.
fn end_near_last(random: &mut Random, places: &mut [u8]) {
    let start = PLACES[random.below(PLACES.len())];
    let length = (LAST_PLACE - start + random.below(3) as u32).saturating_sub(1);
    places[..3].copy_from_slice(&start.to_be_bytes()[1..]);
    places[3..].copy_from_slice(&length.min(LAST_PLACE).to_be_bytes()[1..]);
}
