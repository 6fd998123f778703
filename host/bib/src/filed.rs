//! All values of a file, resolved in one call.

use proved::{File, LentForFile, ANSWER_NUMBERS};

use crate::room::Room;
use crate::row::NUMBERS;
use crate::{chunk, memory, Kind, Reason, Refusal, Rows, LENT};

/// What the values of a file are resolved to, in the order of their rows.
#[derive(Debug, Clone, PartialEq, Eq)]
pub struct ResolvedFile {
    /// For each value six numbers, as the C function gives them.
    answers: Vec<u32>,
    chunks: Vec<u32>,
    text: String,
}

/// What one value is resolved to: as [`Resolved`](crate::Resolved), but the text and the rows are the
/// file's.
#[derive(Debug, Clone, Copy, PartialEq, Eq)]
pub struct ResolvedValue<'a> {
    pub text: &'a str,
    pub rows: &'a [u32],
    /// How many names were resolved, month words included.
    pub names: usize,
}

impl ResolvedFile {
    /// How many values there are.
    pub fn len(&self) -> usize {
        self.answers.len() / ANSWER_NUMBERS
    }

    pub fn is_empty(&self) -> bool {
        self.answers.is_empty()
    }

    /// Each value, or why it is refused.
    pub fn iter(&self) -> impl Iterator<Item = Result<ResolvedValue<'_>, Refusal>> {
        let answers = self.answers.chunks_exact(ANSWER_NUMBERS);
        answers.map(|answer| self.value(answer))
    }

    /// The value of this number, the first being 0, if there are so many.
    pub fn get(&self, index: usize) -> Option<Result<ResolvedValue<'_>, Refusal>> {
        let mut answers = self.answers.chunks_exact(ANSWER_NUMBERS);
        answers.nth(index).map(|answer| self.value(answer))
    }

    /// Makes refusals for room of these values' answers: they are beyond a limit. The rows are the file's,
    /// and those of the values rise.
    pub(crate) fn refuse(&mut self, rows: &Rows, beyond: &[u32]) {
        let values = (0..).zip(rows.iter());
        let values = values.filter(|(_, row)| row.kind == Kind::Value);
        let answers = self.answers.chunks_exact_mut(ANSWER_NUMBERS);
        let mut beyond = beyond.iter().peekable();
        for ((index, row), answer) in values.zip(answers) {
            if beyond.next_if(|value| **value == index).is_some() {
                let number = Reason::NoRoom.number();
                answer[..4].copy_from_slice(&[number, 0, row.start as u32, row.end as u32]);
            }
        }
    }

    /// Without the first values, which are those of so many lent bytes before the file: its own places
    /// are moved back, and those in what was lent to [`LENT`](crate::LENT).
    pub(crate) fn behind(mut self, values: usize, length: u32) -> Self {
        let moved = |place: &mut u32| {
            *place = match place.checked_sub(length) {
                Some(own) => own,
                None => *place + LENT as u32,
            };
        };
        self.answers.drain(..values * ANSWER_NUMBERS);
        let answers = self.answers.chunks_exact_mut(ANSWER_NUMBERS);
        for answer in answers.filter(|answer| answer[0] != 0) {
            answer[2..4].iter_mut().for_each(moved);
        }
        for chunk in self.chunks.chunks_exact_mut(chunk::NUMBERS) {
            chunk[3..].iter_mut().for_each(moved);
        }
        self
    }

    fn value(&self, answer: &[u32]) -> Result<ResolvedValue<'_>, Refusal> {
        if answer[0] != 0 {
            return Err(Refusal::of(answer[0], answer[2].into(), answer[3].into()));
        }
        let [names, first, last, from, to] = [1, 2, 3, 4, 5].map(|n| answer[n] as usize);
        Ok(ResolvedValue {
            text: &self.text[from..to],
            rows: &self.chunks[first * chunk::NUMBERS..last * chunk::NUMBERS],
            names,
        })
    }
}

/// Lends more until it is enough. What does not depend on the room is lent once.
pub(crate) fn resolve(file: File, flags: &[bool]) -> Result<ResolvedFile, Refusal> {
    let mut index = Index::of(file.rows)?;
    let mut numbers = memory::zeros(flags.len())?;
    for (number, flag) in numbers.iter_mut().zip(flags) {
        *number = u8::from(*flag);
    }
    let mut room = Room::sure(file.rows.len() / NUMBERS, file.bytes.len());
    let mut resolved = index.resolve(file, &numbers, &room);
    if resolved == Err(Refusal::NO_MEMORY) {
        room = Room::of_all(index.values, file.bytes.len());
        resolved = index.resolve(file, &numbers, &room);
    }
    loop {
        match resolved? {
            Some(all) => return Ok(all),
            None => room.grow()?,
        }
        resolved = index.resolve(file, &numbers, &room);
    }
}

/// What is lent whatever the room is: the scratch and the index of names.
struct Index {
    values: usize,
    scratch: Vec<u8>,
    heads: Vec<u32>,
    next: Vec<u32>,
}

impl Index {
    fn of(rows: &[u32]) -> Result<Self, Refusal> {
        let value = Kind::Value.number();
        let rows = rows.chunks_exact(NUMBERS);
        let length = rows.len();
        Ok(Self {
            values: rows.filter(|row| row[0] == value).count(),
            scratch: memory::zeros(proved::LEAST_SCRATCH)?,
            heads: memory::zeros(length / 2 + 1)?,
            next: memory::zeros(length)?,
        })
    }

    /// What the call gives in this room; nothing where the room is too short.
    fn resolve(
        &mut self,
        file: File,
        flags: &[u8],
        room: &Room,
    ) -> Result<Option<ResolvedFile>, Refusal> {
        let mut answers = memory::zeros(self.values * ANSWER_NUMBERS)?;
        let mut chunks = memory::zeros(room.chunks * chunk::NUMBERS)?;
        let mut text = memory::zeros(room.text)?;
        let mut lent = LentForFile {
            scratch: &mut self.scratch,
            heads: &mut self.heads,
            next: &mut self.next,
            answers: &mut answers,
            chunks: &mut chunks,
            text: &mut text,
        };
        let answer = proved::resolve_file(file, flags, &mut lent);
        if answer.number != 0 {
            return Refusal::of(answer.number, answer.start, answer.end).unless_room();
        }
        let rows = answer.chunk_rows as usize * chunk::NUMBERS;
        Ok(Some(ResolvedFile {
            answers,
            chunks: chunk::written(chunks, rows),
            text: chunk::text(chunk::written(text, answer.bytes as usize)),
        }))
    }
}
