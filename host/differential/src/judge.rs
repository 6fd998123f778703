//! One case: both readers on one file, with some room lent, and everything compared.

use std::time::Instant;

use oracle::{Kind, Refusal, Row};
use proved::Answer;

use crate::report;
use crate::room::Room;

/// Room lent where the Rust refuses: any room must give that refusal.
const ROOM_AT_REFUSAL: usize = 4 * 8 + 1;

/// The refusal for want of room.
const NO_ROOM: u32 = 16;

/// Differences that are shown in full.
const SHOWN: u64 = 5;

/// What is asked of both about a file.
#[derive(Clone, Copy)]
pub struct Asked {
    rust: fn(&[u8], &mut Vec<Row>) -> Result<(), Refusal>,
    proved: fn(&[u8], &mut [u32]) -> Answer,
    /// What stands behind the file in memory: a reader that looks past its end is led astray.
    behind: &'static [u8],
}

pub const READING: Asked = Asked {
    rust: oracle::read_into,
    proved: proved::read,
    behind: b"}\"},=#\n}",
};

/// Behind a last newline stands what would be one more boundary.
pub const SALVAGE: Asked = Asked {
    rust: oracle::salvage_into,
    proved: proved::salvage,
    behind: b"@a{k,}}\"},=#\n@}",
};

/// Runs cases and counts them.
pub struct Judge {
    pub cases: u64,
    pub differ: u64,
    accepted: u64,
    /// What the names of groups must have to be run.
    only: String,
    asked: Asked,
    /// The Rust's rows.
    rows: Vec<Row>,
    /// A copy of the file, with what is asked's `behind` after it.
    file: Vec<u8>,
    room: Room<u32>,
}

impl Judge {
    pub fn new(only: &str) -> Self {
        Self {
            cases: 0,
            differ: 0,
            accepted: 0,
            only: only.into(),
            asked: READING,
            rows: Vec::new(),
            file: Vec::new(),
            room: Room::new(),
        }
    }

    /// From here on, files are asked about in this way.
    pub fn ask(&mut self, asked: Asked) {
        self.asked = asked;
    }

    /// Runs a group of cases and prints its counts.
    pub fn group(&mut self, name: &str, run: impl FnOnce(&mut Self)) {
        if !name.contains(&self.only) {
            return;
        }
        let before = (self.cases, self.accepted, self.differ);
        let start = Instant::now();
        run(self);
        println!(
            "{name}: {} cases, {} accepted, {} differ, {:.1} s",
            self.cases - before.0,
            self.accepted - before.1,
            self.differ - before.2,
            start.elapsed().as_secs_f64()
        );
    }

    /// Counts a case, and says whether it is a difference to be shown.
    pub fn count(&mut self, accepted: bool, same: bool) -> bool {
        self.cases += 1;
        self.accepted += u64::from(accepted);
        self.differ += u64::from(!same);
        !same && self.differ <= SHOWN
    }

    /// One case, with a row and a number more than is needed lent.
    pub fn check(&mut self, file: &[u8]) {
        let expected = self.ask_the_rust(file);
        self.compare_in_enough(file, expected);
    }

    /// The same; gives what the Rust refuses: the file, or of a salvaged file its first damaged piece.
    pub fn check_refused(&mut self, file: &[u8]) -> Option<Refusal> {
        let expected = self.ask_the_rust(file);
        self.compare_in_enough(file, expected);
        let cause = |row: &&Row| row.kind == Kind::Cause as u32;
        let cause = self.rows.iter().find(cause).map(|row| Refusal {
            number: row.detail,
            start: row.start,
            end: row.end,
        });
        expected.err().or(cause)
    }

    /// The same file with every kind of room: none, some, too little by a row and by a number,
    /// just enough, and more.
    pub fn check_rooms(&mut self, file: &[u8]) {
        let expected = self.ask_the_rust(file);
        let need = 4 * self.rows.len();
        let short = [0, 1, 3, 4, need / 2, need.saturating_sub(4)];
        let around = [need.saturating_sub(1), need, need + 1, need + 3];
        for room in short.into_iter().chain(around).chain([need + 4, need + 97]) {
            self.compare(file, expected, room);
        }
    }

    fn ask_the_rust(&mut self, file: &[u8]) -> Result<(), Refusal> {
        self.file.clear();
        self.file.extend_from_slice(file);
        self.file.extend_from_slice(self.asked.behind);
        (self.asked.rust)(file, &mut self.rows)
    }

    fn compare_in_enough(&mut self, file: &[u8], rust: Result<(), Refusal>) {
        let room = match rust {
            Ok(()) => 4 * self.rows.len() + 5,
            Err(_) => ROOM_AT_REFUSAL,
        };
        self.compare(file, rust, room);
    }

    fn compare(&mut self, file: &[u8], rust: Result<(), Refusal>, room: usize) {
        let expected = expected(rust.map(|()| self.rows.len()), room / 4);
        let lent = self.room.lend(room);
        let answer = (self.asked.proved)(&self.file[..file.len()], lent);
        let written = 4 * expected.count as usize;
        let same = answer == expected && self.room_is_right(room, written) && self.file_is(file);
        if self.count(expected.number == 0, same) {
            report::difference(self.cases, file, room, expected, &self.rows, answer);
            report::touched(&self.room, room, written);
        }
        self.room.renew(same, written);
    }

    /// Whether the room holds the Rust's rows where they are to be written, and else is as it was.
    fn room_is_right(&self, room: usize, written: usize) -> bool {
        let rows = self.room.front(written).chunks_exact(4);
        let same = |(held, row): (&[u32], &Row)| held == [row.kind, row.detail, row.start, row.end];
        self.room.rest_is_untouched(room, written) && rows.zip(&self.rows).all(same)
    }

    fn file_is(&self, file: &[u8]) -> bool {
        self.file[..file.len()] == *file && self.file[file.len()..] == *self.asked.behind
    }
}

/// 01's order: what the input is refused with, and only then the room. The Rust's answer is that
/// many rows or bytes, and so is the room.
pub fn expected(rust: Result<usize, Refusal>, room: usize) -> Answer {
    match rust {
        Err(refusal) => Answer::refused(refusal.number, refusal.start.into(), refusal.end.into()),
        Ok(count) if count > room => Answer::refused(NO_ROOM, 0, 0),
        Ok(count) => Answer::accepted(count as u64),
    }
}
