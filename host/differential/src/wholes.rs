//! All values of a file at once: the proved call over a whole file, and the Rust on every value, with
//! several rooms and indexes lent, and everything compared; and the same file value by value.

use oracle::{Fields, Given, Refusal, CHUNK_NUMBERS, LEAST_SCRATCH};
use proved::{File, Filed, Lent, LentForFile, ANSWER_NUMBERS};

use crate::judge::Judge;
use crate::lent::{unchanged, Expected, Held, Input, Tried, NO_ROOM, SCRATCH};
use crate::report;
use crate::room::Room;
use crate::values::Asks;

/// What would be more flags, if the call looked past them.
const MORE_FLAGS: &[u8] = &[1, 0, 1, 1, 0, 0, 1];

/// The flags that stand for a verbatim field: any number but 0.
const FLAGS: [u8; 4] = [1, 2, 0x80, 0xFF];

/// How much of each is lent: numbers of the index, of answers and of chunk rows, and bytes.
#[derive(Clone, Copy, Debug)]
pub struct Lengths {
    scratch: usize,
    heads: usize,
    next: usize,
    answers: usize,
    chunks: usize,
    text: usize,
}

impl Lengths {
    /// Just enough, with a good index of so many rows.
    fn of(laid: &Laid, rows: usize, scratch: usize) -> Self {
        Self {
            scratch,
            heads: rows / 2 + 1,
            next: rows,
            answers: laid.answers.len(),
            chunks: laid.chunks.len(),
            text: laid.text.len(),
        }
    }
}

/// What the Rust says of a file, laid out as the call writes it.
#[derive(Default)]
struct Laid {
    answers: Vec<u32>,
    chunks: Vec<u32>,
    text: Vec<u8>,
}

/// Asks about all values at once.
pub struct Wholes {
    input: Input,
    flags: Held<u8>,
    scratch: Room<u8>,
    heads: Room<u32>,
    next: Room<u32>,
    answers: Room<u32>,
    chunks: Room<u32>,
    text: Room<u8>,
    /// Cases so far, for flags, rooms and indexes to take turns.
    turn: usize,
}

impl Asks for Wholes {
    fn new() -> Self {
        Self {
            input: Input::new(),
            flags: Held::new(MORE_FLAGS),
            scratch: Room::new(),
            heads: Room::new(),
            next: Room::new(),
            answers: Room::new(),
            chunks: Room::new(),
            text: Room::new(),
            turn: 0,
        }
    }

    /// All values, whichever are chosen: mixed flags, and each the other way round.
    fn ask(
        &mut self,
        judge: &mut Judge,
        (given, fields): (Given, &Fields),
        _: impl Iterator<Item = usize>,
        scratch: Option<usize>,
        tried: Tried,
    ) {
        self.input.take(given);
        self.turn += 1;
        let rows = given.rows.chunks(4);
        let values = rows.filter(|row| row[0] == 5).count();
        for round in [0, 1] {
            let flag = |value: usize| match (value + self.turn / 7 + round) % 2 {
                0 => 0,
                _ => FLAGS[(value + self.turn) % FLAGS.len()],
            };
            // Now and then more flags than values, and fewer.
            let count = match self.turn % 16 {
                3 => values + 2,
                9 => values.saturating_sub(1),
                _ => values,
            };
            let flags: Vec<u8> = (0..count).map(flag).collect();
            let enough = SCRATCH[self.turn % SCRATCH.len()];
            self.ask_all(judge, fields, &flags, scratch.unwrap_or(enough), tried);
        }
        self.input.check(judge, given);
    }
}

impl Wholes {
    fn ask_all(
        &mut self,
        judge: &mut Judge,
        fields: &Fields,
        flags: &[u8],
        scratch: usize,
        tried: Tried,
    ) {
        self.flags.take(flags);
        let expected = fields.resolve_all(flags, scratch).map(|all| laid(&all));
        let rows = self.input.lent().rows.len() / 4;
        let exactly = match &expected {
            Ok(laid) => Lengths::of(laid, rows, scratch),
            // Any room must give the refusal.
            Err(_) => {
                let (numbers, text) = [(0, 0), (12, 9), (40, 64)][self.turn % 3];
                Lengths {
                    answers: numbers,
                    chunks: numbers,
                    text,
                    ..Lengths::of(&Laid::default(), rows, scratch)
                }
            }
        };
        self.compare(judge, &expected, exactly);
        let others = match tried {
            Tried::No => Vec::new(),
            Tried::One => vec![other_room(indexed(exactly, rows, self.turn), self.turn / 2)],
            Tried::All => all_rooms(exactly, rows),
        };
        for lengths in others {
            self.compare(judge, &expected, lengths);
        }
        unchanged(judge, self.flags.is(flags));
    }

    fn compare(&mut self, judge: &mut Judge, expected: &Result<Laid, Refusal>, lengths: Lengths) {
        let (file, flags) = (self.input.lent(), self.flags.lent());
        let mut lent = LentForFile {
            scratch: self.scratch.lend(lengths.scratch),
            heads: self.heads.lend(lengths.heads),
            next: self.next.lend(lengths.next),
            answers: self.answers.lend(lengths.answers),
            chunks: self.chunks.lend(lengths.chunks),
            text: self.text.lend(lengths.text),
        };
        let answer = proved::resolve_file(file, flags, &mut lent);
        let wanted = wanted(expected, lengths);
        let nothing = Laid::default();
        let laid = match expected {
            Ok(laid) if wanted.number == 0 => laid,
            _ => &nothing,
        };
        let same = answer == wanted
            && self.answers.holds(&laid.answers, lengths.answers)
            && self.chunks.holds(&laid.chunks, lengths.chunks)
            && self.text.holds(&laid.text, lengths.text)
            && self.scratch.is_zeroed(lengths.scratch)
            && self.heads.is_zeroed(lengths.heads)
            && self.next.is_zeroed(lengths.next);
        if judge.count(wanted.number == 0, same) {
            let both = (wanted, &laid.answers[..]);
            report::whole(judge.cases, &file, flags, lengths, both, answer);
            report::touched(&self.answers, lengths.answers, laid.answers.len());
            report::touched(&self.chunks, lengths.chunks, laid.chunks.len());
            report::touched(&self.text, lengths.text, laid.text.len());
            report::zeroed("scratch", &self.scratch, lengths.scratch);
            report::zeroed("heads", &self.heads, lengths.heads);
            report::zeroed("next", &self.next, lengths.next);
        }
        self.renew(same, laid, lengths);
    }

    fn renew(&mut self, same: bool, laid: &Laid, lengths: Lengths) {
        self.answers.renew(same, laid.answers.len());
        self.chunks.renew(same, laid.chunks.len());
        self.text.renew(same, laid.text.len());
        self.scratch.renew(same, lengths.scratch);
        self.heads.renew(same, lengths.heads);
        self.next.renew(same, lengths.next);
    }
}

/// 01's order: what the file is refused with, and only then the room.
fn wanted(expected: &Result<Laid, Refusal>, lengths: Lengths) -> Filed {
    match expected {
        Err(refusal) => Filed::refused(refusal.number, refusal.start.into(), refusal.end.into()),
        Ok(laid) => {
            let values = laid.answers.len() / ANSWER_NUMBERS;
            let rows = laid.chunks.len() / CHUNK_NUMBERS;
            let is_enough = lengths.answers / ANSWER_NUMBERS >= values
                && lengths.chunks / CHUNK_NUMBERS >= rows
                && lengths.text >= laid.text.len();
            match is_enough {
                true => Filed::accepted(values as u64, rows as u64, laid.text.len() as u64),
                false => Filed::refused(NO_ROOM, 0, 0),
            }
        }
    }
}

/// Every value's answer with its chunk rows and text behind those of the values before it.
fn laid(values: &[Expected]) -> Laid {
    let mut laid = Laid::default();
    for value in values {
        match value {
            Err(refusal) => {
                let place = [refusal.start, refusal.end];
                laid.answers.extend([refusal.number, 0]);
                laid.answers.extend(place);
                laid.answers.extend([0, 0]);
            }
            Ok(resolved) => {
                let rows = |laid: &Laid| (laid.chunks.len() / CHUNK_NUMBERS) as u32;
                let (first, from) = (rows(&laid), laid.text.len() as u32);
                laid.chunks.extend_from_slice(&resolved.rows);
                laid.text.extend_from_slice(&resolved.text);
                let (last, to) = (rows(&laid), laid.text.len() as u32);
                let names = resolved.names as u32;
                laid.answers.extend([0, names, first, last, from, to]);
            }
        }
    }
    laid
}

/// The same with another index, by turns: no bucket, one, a few, many; and numbers for all rows, for
/// fewer, for none, and for more.
fn indexed(lengths: Lengths, rows: usize, turn: usize) -> Lengths {
    let heads = [0, 1, 2, 3, 7, rows, 2 * rows + 61];
    let next = [rows, rows, rows + 3, rows.saturating_sub(1), rows, 0];
    Lengths {
        heads: heads[turn % heads.len()],
        next: next[turn % next.len()],
        ..lengths
    }
}

/// A room beside just enough, by turns: too short by a number, by a row or by a byte, or too long.
fn other_room(exactly: Lengths, turn: usize) -> Lengths {
    let mut lengths = exactly;
    let less = |length: &mut usize, by| *length = length.saturating_sub(by);
    match turn % 10 {
        0 => less(&mut lengths.answers, 1),
        1 => less(&mut lengths.chunks, 1),
        2 => less(&mut lengths.text, 1),
        3 => less(&mut lengths.answers, ANSWER_NUMBERS),
        4 => less(&mut lengths.chunks, CHUNK_NUMBERS),
        5 => (lengths.answers, lengths.chunks, lengths.text) = (0, 0, 0),
        6 => lengths.answers += ANSWER_NUMBERS - 1,
        7 => (lengths.chunks, lengths.text) = (exactly.chunks + 4, exactly.text + 1),
        8 => (lengths.answers, lengths.chunks) = (exactly.answers + 13, exactly.chunks + 97),
        _ => {}
    }
    lengths
}

/// Every kind of room, with an index that is another each time.
fn all_rooms(exactly: Lengths, rows: usize) -> Vec<Lengths> {
    let around = |exactly: usize, row: usize| {
        let less = [0, exactly.saturating_sub(row), exactly.saturating_sub(1)];
        let more = [exactly, exactly + row - 1, exactly + row];
        less.into_iter().chain(more)
    };
    let mut all = Vec::new();
    for answers in around(exactly.answers, ANSWER_NUMBERS) {
        for chunks in around(exactly.chunks, CHUNK_NUMBERS) {
            for text in around(exactly.text, 2) {
                let index = indexed(exactly, rows, all.len());
                let lengths = Lengths {
                    answers,
                    chunks,
                    text,
                    ..index
                };
                all.push(lengths);
            }
        }
    }
    all
}

/// The call over a whole file beside a call for each value: both must say the same of each.
pub fn one_by_one(judge: &mut Judge, given: Given, flags: &[u8]) {
    let mut wholes = Wholes::new();
    wholes.input.take(given);
    wholes.flags.take(flags);
    let values = (0..given.rows.len() / 4).filter(|row| given.rows[4 * row] == 5);
    let file = wholes.input.lent();
    let mut rooms = Rooms::default();
    let all = values.zip(flags);
    let all: Vec<Expected> = all
        .map(|(which, flag)| rooms.resolve(file, which, *flag))
        .collect();
    let laid = laid(&all);
    let lengths = Lengths::of(&laid, given.rows.len() / 4, LEAST_SCRATCH);
    wholes.compare(judge, &Ok(laid), lengths);
}

/// What the call for one value is lent: more than the files that are asked about have.
struct Rooms {
    scratch: Vec<u8>,
    chunks: Vec<u32>,
    text: Vec<u8>,
}

impl Default for Rooms {
    fn default() -> Self {
        Self {
            scratch: vec![1; LEAST_SCRATCH],
            chunks: vec![1; 500_000],
            text: vec![1; 500_000],
        }
    }
}

impl Rooms {
    fn resolve(&mut self, file: File, which: usize, flag: u8) -> Expected {
        let mut lent = Lent {
            scratch: &mut self.scratch,
            chunks: &mut self.chunks,
            text: &mut self.text,
        };
        let answer = proved::resolve_field(file, which, flag.into(), &mut lent);
        match answer.number {
            0 => Ok(oracle::Resolved {
                rows: self.chunks[..CHUNK_NUMBERS * answer.count as usize].to_vec(),
                text: self.text[..answer.bytes as usize].to_vec(),
                names: answer.names,
            }),
            number => Err(Refusal {
                number,
                start: answer.start as u32,
                end: answer.end as u32,
            }),
        }
    }
}
