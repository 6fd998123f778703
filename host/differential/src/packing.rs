//! Packing and unpacking: rows of all kinds, in sequence and not, and packed bytes, sound and not.

use cases::rows::{break_bytes, break_rows, Rows, LOST, PLACES, TOO_FAR};
use cases::Random;
use packer::LAST_PLACE;

use crate::exhaustive;
use crate::judge::Judge;
use crate::packs::Packs;

/// The last kind, the only one with a detail, and a detail for it.
const CAUSE: u32 = 10;
const SOME_CAUSE: u32 = 7;

/// For each kind a sequence that has it.
const WITH: [&[u32]; 6] = [
    &[0],
    &[1, 2, 3],
    &[1, 2, 3, 4, 5, 6],
    &[1, 2, 3, 4, 5, 7, 6],
    &[8, 5, 6],
    &[9, CAUSE],
];

/// Counts of rows at which they, their numbers or their bytes fill 8, 16 or 24 bits.
const COUNTS: [usize; 14] = [
    1, 2, 36, 37, 63, 64, 255, 256, 257, 9_362, 9_363, 16_384, 65_535, 65_536,
];
const LONG_COUNTS: [usize; 4] = [2_396_745, 2_396_746, 4_194_303, 4_194_304];

/// Preambles, entries, definitions and damaged pieces in a sequence, at most.
const ITEMS: usize = 12;

fn detail(kind: u32) -> u32 {
    if kind == CAUSE {
        SOME_CAUSE
    } else {
        0
    }
}

/// Rows of these kinds. Each has another place, so that no two can be taken for each other.
fn rows(kinds: &[u32]) -> Vec<u32> {
    let row = |(i, &kind): (usize, &u32)| {
        let start = 300 * i as u32;
        [kind, detail(kind), start, start + 257 + i as u32]
    };
    kinds.iter().enumerate().flat_map(row).collect()
}

/// The same packed, by hand: bytes can have kinds that no packer gives.
fn bytes(rows: &[u32]) -> Vec<u8> {
    let row = |row: &[u32]| {
        let [_, s1, s2, s3] = row[2].to_be_bytes();
        let [_, l1, l2, l3] = row[3].wrapping_sub(row[2]).to_be_bytes();
        [(row[0] << 4 | row[1]) as u8, s1, s2, s3, l1, l2, l3]
    };
    rows.chunks_exact(4).flat_map(row).collect()
}

/// Every sequence of at most six (quick: four) kinds, one that is none among them.
pub fn sequences(judge: &mut Judge, long: bool) {
    let mut packs = Packs::new();
    exhaustive::kinds(if long { 6 } else { 4 }, |kinds| {
        let rows = rows(kinds);
        packs.rows(judge, &rows);
        packs.bytes(judge, &bytes(&rows));
    });
}

/// Every kind with every detail of four bits, and both with what is lost in fewer bits.
pub fn details(judge: &mut Judge) {
    let mut packs = Packs::new();
    for kinds in WITH {
        for at in (0..kinds.len()).map(|i| 4 * i) {
            let mut rows = rows(kinds);
            for kind in 0..16 {
                for detail in 0..16 {
                    (rows[at], rows[at + 1]) = (kind, detail);
                    packs.rows(judge, &rows);
                    packs.bytes(judge, &bytes(&rows));
                }
            }
            let kind = kinds[at / 4];
            for lost in LOST.into_iter().chain(LOST.map(|lost| 15 * lost)) {
                (rows[at], rows[at + 1]) = (kind + lost, detail(kind));
                packs.rows(judge, &rows);
                (rows[at], rows[at + 1]) = (kind, detail(kind) + lost);
                packs.rows(judge, &rows);
            }
        }
    }
}

/// Every pair of places around what a number of 8, 16 or 24 bits holds, as start and end and as
/// start and length, in the first row and in the last, with every kind of room.
pub fn places(judge: &mut Judge) {
    let mut packs = Packs::new();
    let all: Vec<u32> = PLACES.into_iter().chain(TOO_FAR).collect();
    for (i, &start) in all.iter().enumerate() {
        for &other in &all {
            let end = start.saturating_add(other);
            for kinds in [&[0][..], &[9, CAUSE]] {
                for end in [other, end, end.saturating_sub(1)] {
                    let mut rows = rows(kinds);
                    let last = rows.len() - 2;
                    rows[last..].copy_from_slice(&[start, end]);
                    packs.rows(judge, &rows);
                    packs.rooms(judge, &rows);
                }
            }
            if i < PLACES.len() {
                packs.bytes(judge, &bytes(&[0, 0, start, end]));
            }
        }
    }
}

/// Counts that are no whole count of rows, and those at which a number of some bits is full.
pub fn counts(judge: &mut Judge, long: bool) {
    let mut packs = Packs::new();
    for kinds in WITH {
        let rows = rows(kinds);
        let bytes = bytes(&rows);
        (0..=rows.len()).for_each(|count| packs.rows(judge, &rows[..count]));
        (0..=bytes.len()).for_each(|count| packs.bytes(judge, &bytes[..count]));
    }
    for rows in COUNTS.map(preambles) {
        packs.rows(judge, &rows);
        packs.rooms(judge, &rows);
    }
    for &count in if long { &LONG_COUNTS[..] } else { &[] } {
        packs.rows(judge, &preambles(count));
    }
}

/// So many preambles, at places that go round.
fn preambles(count: usize) -> Vec<u32> {
    let row = |i: usize| {
        let start = (300 * i as u32) & LAST_PLACE;
        [0, 0, start, (start + i as u32 % 7).min(LAST_PLACE)]
    };
    (0..count).flat_map(row).collect()
}

/// Random sequences, some broken in one place or more, and their bytes, broken likewise.
pub fn drawn(judge: &mut Judge, seed: u64, long: bool) {
    let (mut random, mut packs) = (Random::new(seed, 6), Packs::new());
    let (mut rows, mut bytes) = (Vec::new(), Vec::new());
    for turn in 0..if long { 1_000_000 } else { 20_000 } {
        draw(&mut random, &mut rows);
        bytes.clear();
        bytes.extend_from_slice(packs.packed(&rows).expect("a sequence of 01's"));
        if turn % 2 == 1 {
            for _ in 0..=random.below(2) {
                break_rows(&mut random, &mut rows);
                break_bytes(&mut random, &mut bytes);
            }
        }
        packs.rows(judge, &rows);
        packs.bytes(judge, &bytes);
    }
}

/// Random sequences with every kind of room.
pub fn rooms(judge: &mut Judge, seed: u64, long: bool) {
    let (mut random, mut packs) = (Random::new(seed, 7), Packs::new());
    let mut rows = Vec::new();
    for turn in 0..if long { 60_000 } else { 1_000 } {
        draw(&mut random, &mut rows);
        if turn % 4 == 3 {
            break_rows(&mut random, &mut rows);
        }
        packs.rooms(judge, &rows);
    }
}

fn draw(random: &mut Random, out: &mut Vec<u32>) {
    out.clear();
    Rows { random, out }.sequence(ITEMS);
}
