//! Random files: by grammar, damaged, without a grammar, and with every kind of room.

use cases::{damage, tear, Bytes, Grammar, Random};

use crate::judge::Judge;

/// What is drawn for a reading: the form of its files, what is done to copies of them, and how many
/// there are in a long run.
pub struct Drawing {
    /// The streams of random numbers for files, for damaged copies and for files with every room.
    streams: [u64; 3],
    write: fn(&mut Grammar),
    spoil: fn(&mut Random, &mut Vec<u8>, &[u8]),
    /// Every third file with every room is torn first.
    is_torn: bool,
    files: usize,
    damaged: usize,
}

/// For strict reading.
pub const STRICT: Drawing = Drawing {
    streams: [1, 2, 4],
    write: |grammar| grammar.file(20),
    spoil: |random, file, other| {
        for _ in 0..=random.below(3) {
            damage(random, file, other);
        }
    },
    is_torn: false,
    files: 600_000,
    damaged: 250_000,
};

/// For salvage: most items are on lines of their own, and files are torn as well.
pub const SALVAGE: Drawing = Drawing {
    streams: [8, 9, 10],
    write: |grammar| grammar.lines(12),
    spoil,
    is_torn: true,
    files: 400_000,
    damaged: 150_000,
};

/// Damages a file in some places and tears it in others.
pub fn spoil(random: &mut Random, file: &mut Vec<u8>, other: &[u8]) {
    for _ in 0..random.below(3) {
        damage(random, file, other);
    }
    for _ in 0..random.below(3) {
        tear(random, file);
    }
}

impl Drawing {
    /// Clears `out` and writes a file by grammar into it.
    fn draw(&self, random: &mut Random, out: &mut Vec<u8>, odd: usize) {
        out.clear();
        (self.write)(&mut Grammar { random, out, odd });
    }

    pub fn grammar(&self, judge: &mut Judge, seed: u64, long: bool) {
        let mut random = Random::new(seed, self.streams[0]);
        let mut file = Vec::new();
        for turn in 0..if long { self.files } else { 10_000 } {
            // Half of the files have no odd token, so that most of those are accepted.
            self.draw(&mut random, &mut file, [usize::MAX, 80][turn % 2]);
            judge.check(&file);
        }
    }

    pub fn damaged(&self, judge: &mut Judge, seed: u64, long: bool) {
        let mut random = Random::new(seed, self.streams[1]);
        let (mut file, mut other, mut copy) = (Vec::new(), Vec::new(), Vec::new());
        for _ in 0..if long { self.damaged } else { 3_000 } {
            std::mem::swap(&mut file, &mut other);
            self.draw(&mut random, &mut file, usize::MAX);
            for _ in 0..8 {
                copy.clone_from(&file);
                (self.spoil)(&mut random, &mut copy, &other);
                judge.check(&copy);
            }
        }
    }

    pub fn rooms(&self, judge: &mut Judge, seed: u64, long: bool) {
        let mut random = Random::new(seed, self.streams[2]);
        let mut file = Vec::new();
        for turn in 0..if long { 60_000 } else { 1_000 } {
            self.draw(&mut random, &mut file, [usize::MAX, 80][turn % 2]);
            if self.is_torn && turn % 3 == 0 {
                tear(&mut random, &mut file);
            }
            judge.check_rooms(&file);
        }
    }
}

pub fn bytes(judge: &mut Judge, seed: u64, long: bool) {
    let mut random = Random::new(seed, 3);
    let mut file = Vec::new();
    for _ in 0..if long { 2_000_000 } else { 20_000 } {
        file.clear();
        let (random, out) = (&mut random, &mut file);
        Bytes { random, out }.file(96);
        judge.check(&file);
    }
}
