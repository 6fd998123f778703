//! What the calls that resolve are lent: what they read, with something behind it, and what they write,
//! with guards around it; and everything compared.

use oracle::{Given, Refusal, LEAST_SCRATCH};
use proved::{File, Lent, Resolved};

use crate::judge::Judge;
use crate::report;
use crate::room::{self, Room};

/// The refusal for want of room.
pub const NO_ROOM: u32 = 16;

/// What stands behind each thing that is lent to be read: what would go on a literal, a row or a word.
pub const BEHIND: &[u8] = b"}$}\x80 e";
const MORE_ROWS: &[u32] = &[6, 0, 0, 0, 7, 0, 0, 0];

/// Numbers that say that a field is verbatim: any but 0.
pub const FLAGS: [u32; 5] = [1, 2, 0x100, 0x8000_0000, u32::MAX];

/// Lengths of scratch that is enough, by turns.
pub const SCRATCH: [usize; 4] = [
    LEAST_SCRATCH,
    LEAST_SCRATCH,
    LEAST_SCRATCH + 1,
    LEAST_SCRATCH + 4_096,
];

/// What both say of a literal or a field, if it has room: the Rust, or a case that is written from 01.
pub type Expected = Result<oracle::Resolved, Refusal>;

/// Numbers lent for chunk rows, and bytes for text.
pub type Rooms = (usize, usize);

/// A copy of what is lent to be read, with something behind.
pub struct Held<T: 'static> {
    all: Vec<T>,
    length: usize,
    behind: &'static [T],
}

impl<T: room::Lent> Held<T> {
    pub fn new(behind: &'static [T]) -> Self {
        Self {
            all: Vec::new(),
            length: 0,
            behind,
        }
    }

    pub fn take(&mut self, some: &[T]) {
        self.length = some.len();
        self.all.clear();
        self.all.extend_from_slice(some);
        self.all.extend_from_slice(self.behind);
    }

    pub fn lent(&self) -> &[T] {
        &self.all[..self.length]
    }

    /// Whether it is as it was, and what stands behind too.
    pub fn is(&self, some: &[T]) -> bool {
        self.lent() == some && self.all[self.length..] == *self.behind
    }
}

/// Such copies of a file, its rows and month words.
pub struct Input {
    file: Held<u8>,
    rows: Held<u32>,
    months: Held<u32>,
    words: Held<u8>,
}

impl Input {
    pub fn new() -> Self {
        Self {
            file: Held::new(BEHIND),
            rows: Held::new(MORE_ROWS),
            months: Held::new(MORE_ROWS),
            words: Held::new(BEHIND),
        }
    }

    pub fn take(&mut self, given: Given) {
        self.file.take(given.file);
        self.rows.take(given.rows);
        self.months.take(given.months);
        self.words.take(given.words);
    }

    pub fn lent(&self) -> File<'_> {
        File {
            bytes: self.file.lent(),
            rows: self.rows.lent(),
            months: self.months.lent(),
            words: self.words.lent(),
        }
    }

    /// What is lent to be read is as it was.
    pub fn check(&self, judge: &mut Judge, given: Given) {
        let same = self.file.is(given.file)
            && self.rows.is(given.rows)
            && self.months.is(given.months)
            && self.words.is(given.words);
        unchanged(judge, same);
    }
}

/// Counts a difference where a call changed what it was lent to be read.
pub fn unchanged(judge: &mut Judge, same: bool) {
    if !same {
        judge.count(false, false);
        println!("resolving changed what it was lent to be read");
    }
}

/// What a call for one literal or one field is lent to be written.
pub struct Output {
    scratch: Room<u8>,
    chunks: Room<u32>,
    text: Room<u8>,
}

impl Output {
    pub fn new() -> Self {
        Self {
            scratch: Room::new(),
            chunks: Room::new(),
            text: Room::new(),
        }
    }

    /// Calls with so much scratch and these rooms, and compares the answer, what was written, what was
    /// not, and the scratch. `show` says what the case was.
    pub fn compare(
        &mut self,
        judge: &mut Judge,
        expected: &Expected,
        (scratch, rooms): (usize, Rooms),
        call: impl FnOnce(&mut Lent) -> Resolved,
        show: impl FnOnce(u64),
    ) {
        let answer = call(&mut Lent {
            scratch: self.scratch.lend(scratch),
            chunks: self.chunks.lend(rooms.0),
            text: self.text.lend(rooms.1),
        });
        let wanted = wanted(expected, rooms);
        let (rows, text) = match expected {
            Ok(resolved) if wanted.number == 0 => (&resolved.rows[..], &resolved.text[..]),
            _ => (&[][..], &[][..]),
        };
        let same = answer == wanted
            && self.chunks.holds(rows, rooms.0)
            && self.text.holds(text, rooms.1)
            && self.scratch.is_zeroed(scratch);
        if judge.count(wanted.number == 0, same) {
            show(judge.cases);
            report::resolved((wanted, rows, text), answer);
            report::touched(&self.chunks, rooms.0, rows.len());
            report::touched(&self.text, rooms.1, text.len());
            report::zeroed("scratch", &self.scratch, scratch);
        }
        self.chunks.renew(same, rows.len());
        self.text.renew(same, text.len());
        self.scratch.renew(same, scratch);
    }
}

/// How many other rooms are tried beside just enough.
#[derive(Clone, Copy, PartialEq)]
pub enum Tried {
    No,
    One,
    All,
}

/// The rooms that a case is tried with: just enough and others; of a refusal, which any room must give,
/// one by turns.
pub fn rooms(expected: &Expected, tried: Tried, turn: usize) -> Vec<Rooms> {
    let Ok(resolved) = expected else {
        return vec![[(0, 0), (5, 9), (40, 64)][turn % 3]];
    };
    let (numbers, bytes) = (resolved.rows.len(), resolved.text.len());
    let mut rooms = vec![(numbers, bytes)];
    match tried {
        Tried::No => {}
        Tried::One => rooms.push(one_more(numbers, bytes, turn)),
        Tried::All => rooms.extend(all_rooms(numbers, bytes)),
    }
    rooms
}

/// A room beside just enough, by turns: too short by a number, by a row or by a byte, or too long.
fn one_more(numbers: usize, bytes: usize, turn: usize) -> Rooms {
    let some = [
        (numbers - 1, bytes),
        (numbers, bytes.saturating_sub(1)),
        (numbers + 4, bytes + 1),
        (numbers - 5, bytes + 9),
        (numbers + 9, bytes + 33),
        (0, 0),
    ];
    some[turn % some.len()]
}

fn all_rooms(numbers: usize, bytes: usize) -> Vec<Rooms> {
    let less = [0, 1, 4, 5, numbers / 2].into_iter();
    let less = less.chain([numbers - 5, numbers - 1]);
    let rows = less.chain([0, 1, 4, 5, 97].map(|more| numbers + more));
    let less = [0, 1, bytes / 2, bytes.saturating_sub(1)];
    let texts: Vec<usize> = less
        .into_iter()
        .chain([bytes, bytes + 1, bytes + 97])
        .collect();
    rows.flat_map(|row| texts.iter().map(move |text| (row, *text)))
        .collect()
}

/// 01's order: what the literal or field is refused with, and only then the room.
fn wanted(expected: &Expected, rooms: Rooms) -> Resolved {
    match expected {
        Err(refusal) => Resolved::refused(refusal.number, refusal.start.into(), refusal.end.into()),
        Ok(resolved) => {
            let rows = resolved.rows.len() / oracle::CHUNK_NUMBERS;
            if rooms.0 / oracle::CHUNK_NUMBERS < rows || rooms.1 < resolved.text.len() {
                return Resolved::refused(NO_ROOM, 0, 0);
            }
            Resolved::accepted(rows as u64, resolved.text.len() as u64, resolved.names)
        }
    }
}
