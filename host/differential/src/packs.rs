//! One case of packing or unpacking: the proved function and the Rust packer on the same input,
//! with some room lent, and everything compared.

use packer::BadRows;
use proved::Answer;

use crate::judge::Judge;
use crate::report::{self, Given};
use crate::room::{Lent, Room};

/// The refusals: of the rows, and for want of room.
const BAD_ROWS: u32 = 17;
const NO_ROOM: u32 = 16;

/// Room lent where the input is refused: any room must give that refusal.
const ROOM_AT_REFUSAL: usize = 33;

/// One direction.
struct Way<T: 'static, U> {
    name: &'static str,
    rust: fn(&[T], &mut Vec<U>) -> Result<(), BadRows>,
    proved: fn(&[T], &mut [U]) -> Answer,
    /// What stands behind the input in memory: a function that looks past its end may find there
    /// what was missing, or one thing more.
    behind: &'static [T],
    /// What is counted, and how many numbers one of them has.
    unit: &'static str,
    each: usize,
    /// A copy of the input, with `behind` after it.
    input: Vec<T>,
    /// What is to be written.
    expected: Vec<U>,
    room: Room<U>,
}

impl<T: Lent, U: Lent> Way<T, U> {
    /// One case, with more room than is needed; says whether it is to be accepted.
    fn check(&mut self, judge: &mut Judge, input: &[T]) -> bool {
        let rust = self.ask_the_rust(input);
        let room = match rust {
            Ok(()) => self.expected.len() + 5,
            Err(_) => ROOM_AT_REFUSAL,
        };
        self.compare(judge, input, rust, room);
        rust.is_ok()
    }

    /// The same input with every kind of room: none, some, too little by one and by a row, just
    /// enough, and with a rest.
    fn check_rooms(&mut self, judge: &mut Judge, input: &[T]) {
        let rust = self.ask_the_rust(input);
        let need = self.expected.len();
        let short = [0, 1, 3, 4, 6, 7, 8, need / 2];
        let less = [8, 7, 6, 4, 3, 2, 1].map(|less| need.saturating_sub(less));
        let more = [0, 1, 2, 3, 4, 7, 97].map(|more| need + more);
        for room in short.into_iter().chain(less).chain(more) {
            self.compare(judge, input, rust, room);
        }
    }

    /// The way back: this input must give what it was made from, in just as much room.
    fn check_back(&mut self, judge: &mut Judge, input: &[T], origin: &[U]) {
        self.take(input);
        self.expected.clear();
        self.expected.extend_from_slice(origin);
        self.compare(judge, input, Ok(()), origin.len());
    }

    fn take(&mut self, input: &[T]) {
        self.input.clear();
        self.input.extend_from_slice(input);
        self.input.extend_from_slice(self.behind);
    }

    fn ask_the_rust(&mut self, input: &[T]) -> Result<(), BadRows> {
        self.take(input);
        (self.rust)(input, &mut self.expected)
    }

    fn compare(&mut self, judge: &mut Judge, input: &[T], rust: Result<(), BadRows>, room: usize) {
        let expected = self.expected(rust, room);
        let written = expected.count as usize * self.each;
        let answer = (self.proved)(&self.input[..input.len()], self.room.lend(room));
        let same = answer == expected
            && self.room.holds(&self.expected[..written], room)
            && self.input_is(input);
        if judge.count(expected.number == 0, same) {
            let given = Given {
                unit: self.unit,
                expected,
                written: &self.expected[..written],
                answer,
            };
            report::packing(judge.cases, self.name, room, input, given);
            report::touched(&self.room, room, written);
        }
        self.room.renew(same, written);
    }

    /// 01's order: the rows first, and only then the room.
    fn expected(&self, rust: Result<(), BadRows>, room: usize) -> Answer {
        match rust {
            Err(BadRows) => Answer::refused(BAD_ROWS, 0, 0),
            Ok(()) if self.expected.len() > room => Answer::refused(NO_ROOM, 0, 0),
            Ok(()) => Answer::accepted((self.expected.len() / self.each) as u64),
        }
    }

    fn input_is(&self, input: &[T]) -> bool {
        self.input[..input.len()] == *input && self.input[input.len()..] == *self.behind
    }
}

/// Both directions.
pub struct Packs {
    pack: Way<u32, u8>,
    unpack: Way<u8, u32>,
}

impl Packs {
    pub fn new() -> Self {
        Self {
            pack: Way {
                name: "packing",
                rust: packer::pack_into,
                proved: proved::pack,
                behind: &[6, 0, 1, 1, 10, 2, 1, 1],
                unit: "bytes",
                each: 1,
                input: Vec::new(),
                expected: Vec::new(),
                room: Room::new(),
            },
            unpack: Way {
                name: "unpacking",
                rust: packer::unpack_into,
                proved: proved::unpack,
                behind: &[0x60, 0, 0, 1, 0, 0, 0, 0xA2, 0, 0, 1, 0, 0, 0],
                unit: "rows",
                each: packer::NUMBERS,
                input: Vec::new(),
                expected: Vec::new(),
                room: Room::new(),
            },
        }
    }

    /// Packs rows, and where they are accepted unpacks what they give.
    pub fn rows(&mut self, judge: &mut Judge, rows: &[u32]) {
        if self.pack.check(judge, rows) {
            // What the proved function gave is this, or the case before is counted as differing.
            let bytes = &self.pack.expected;
            self.unpack.check_back(judge, bytes, rows);
        }
    }

    /// Unpacks bytes, and where they are accepted packs what they give.
    pub fn bytes(&mut self, judge: &mut Judge, bytes: &[u8]) {
        if self.unpack.check(judge, bytes) {
            let rows = &self.unpack.expected;
            self.pack.check_back(judge, rows, bytes);
        }
    }

    /// Both directions with every kind of room. Bytes of rows that are refused are refused too, or
    /// are those of other rows; either way they are a case.
    pub fn rooms(&mut self, judge: &mut Judge, rows: &[u32]) {
        self.pack.check_rooms(judge, rows);
        let bytes = &self.pack.expected;
        self.unpack.check_rooms(judge, bytes);
    }

    /// What these rows are packed to, if they are accepted.
    pub fn packed(&mut self, rows: &[u32]) -> Option<&[u8]> {
        self.pack.ask_the_rust(rows).ok()?;
        Some(&self.pack.expected)
    }
}
