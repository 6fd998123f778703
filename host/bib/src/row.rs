//! Rows, as document 01 has them.

use std::collections::TryReserveError;
use std::fmt;
use std::ops::Range;

/// The numbers of a row, and the bytes of a packed one.
pub(crate) const NUMBERS: usize = 4;
pub(crate) const BYTES: usize = 7;

/// What a row is of.
#[derive(Debug, Clone, Copy, PartialEq, Eq, Hash)]
pub enum Kind {
    /// A preamble, with its quotes.
    Preamble,
    Entry,
    EntryType,
    Key,
    FieldName,
    Value,
    Literal,
    Name,
    DefinitionName,
    /// A piece that is damaged, of salvage only.
    Damage,
    /// Why the piece of the row before is damaged: the detail is the refusal's number, and the bytes are
    /// the refusal's.
    Cause,
}

/// In the order of their numbers.
const KINDS: [Kind; 11] = [
    Kind::Preamble,
    Kind::Entry,
    Kind::EntryType,
    Kind::Key,
    Kind::FieldName,
    Kind::Value,
    Kind::Literal,
    Kind::Name,
    Kind::DefinitionName,
    Kind::Damage,
    Kind::Cause,
];

impl Kind {
    /// Document 01's number.
    pub fn number(self) -> u32 {
        self as u32
    }
}

/// One row: the bytes `start..end` of the file are of this kind.
#[derive(Debug, Clone, Copy, PartialEq, Eq, Hash)]
pub struct Row {
    pub kind: Kind,
    /// 0, but in a cause the refusal's number.
    pub detail: u32,
    pub start: usize,
    pub end: usize,
}

impl Row {
    /// Its bytes, as a range.
    pub fn span(&self) -> Range<usize> {
        self.start..self.end
    }
}

impl fmt::Display for Row {
    /// `kind detail start end`, in numbers.
    fn fmt(&self, f: &mut fmt::Formatter<'_>) -> fmt::Result {
        let kind = self.kind.number();
        write!(f, "{kind} {} {} {}", self.detail, self.start, self.end)
    }
}

/// The rows of a reading. None are made elsewhere, so each has one of the kinds.
#[derive(Debug, Clone, PartialEq, Eq, Default)]
pub struct Rows {
    numbers: Vec<u32>,
}

impl Rows {
    pub(crate) fn new(numbers: Vec<u32>) -> Self {
        Self { numbers }
    }

    /// Adds rows, four numbers each, whose places are moved by so much.
    pub(crate) fn extend(&mut self, numbers: &[u32], by: i64) -> Result<(), TryReserveError> {
        self.numbers.try_reserve(numbers.len())?;
        let moved = |place: u32| (i64::from(place) + by) as u32;
        for row in numbers.chunks_exact(NUMBERS) {
            self.numbers
                .extend([row[0], row[1], moved(row[2]), moved(row[3])]);
        }
        Ok(())
    }

    /// As numbers, four to a row: the form that `pack` takes.
    pub fn numbers(&self) -> &[u32] {
        &self.numbers
    }

    pub fn len(&self) -> usize {
        self.numbers.len() / NUMBERS
    }

    pub fn is_empty(&self) -> bool {
        self.numbers.is_empty()
    }

    pub fn iter(&self) -> impl Iterator<Item = Row> + '_ {
        self.numbers.chunks_exact(NUMBERS).map(row)
    }

    /// The row of this number, the first being 0, if there are so many.
    pub fn get(&self, index: usize) -> Option<Row> {
        let first = index.checked_mul(NUMBERS)?;
        let numbers = self.numbers.get(first..first.checked_add(NUMBERS)?)?;
        Some(row(numbers))
    }
}

fn row(numbers: &[u32]) -> Row {
    Row {
        kind: KINDS[numbers[0] as usize],
        detail: numbers[1],
        start: numbers[2] as usize,
        end: numbers[3] as usize,
    }
}
