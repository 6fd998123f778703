//! What a reading is made of, in file order: by its rows, and between them by the text.
//!
//! Rows do not say where definitions, preambles and comments begin and end, nor what lies outside
//! all of them. Here that is found, led by the rows.

use std::ops::Range;

use super::cursor::Cursor;
use crate::{Kind, Row, Rows};

/// A part of a file.
#[derive(Debug, Clone, PartialEq, Eq)]
pub struct Item {
    pub what: What,
    /// From its "@" to behind its closing delimiter.
    pub span: Range<usize>,
    /// The numbers of its rows.
    pub rows: Range<usize>,
}

#[derive(Debug, Clone, Copy, PartialEq, Eq)]
pub enum What {
    Entry,
    Definitions,
    Preamble,
    Comment,
    /// Text that belongs to nothing, with the comments in it; never blank.
    Outside,
    /// A damaged piece.
    Damage,
}

/// The parts of a file, by the rows that strict reading or salvage gave of it.
pub struct Items<'a> {
    file: &'a [u8],
    rows: &'a Rows,
    row: usize,
    place: usize,
}

impl<'a> Items<'a> {
    pub fn of(file: &'a [u8], rows: &'a Rows) -> Self {
        Self {
            file,
            rows,
            row: 0,
            place: 0,
        }
    }

    fn next_row(&self) -> Option<Row> {
        self.rows.get(self.row)
    }

    fn cursor(&self) -> Cursor<'a> {
        Cursor::new(self.file, self.place..self.file.len())
    }

    /// Where the text outside ends that begins here: before an "@" or a damaged piece.
    fn outside_end(&self) -> usize {
        let damage = self.next_row().filter(|row| row.kind == Kind::Damage);
        let end = damage.map_or(self.file.len(), |row| row.start);
        let mut cursor = Cursor::new(self.file, self.place..end);
        loop {
            let text = &self.file[cursor.place..end];
            let stop = text.iter().position(|byte| matches!(byte, b'@' | b'%'));
            cursor.place += stop.unwrap_or(text.len());
            if cursor.peek() != Some(b'%') {
                return cursor.place;
            }
            cursor.comment();
        }
    }

    fn item(&mut self, what: What, past: usize, rows: usize) -> Item {
        let item = Item {
            what,
            span: self.place..past,
            rows: self.row..self.row + rows,
        };
        self.place = past;
        self.row += rows;
        item
    }

    /// An entry: its own row, and those of its type, key and fields.
    fn entry(&mut self, entry: Row) -> Item {
        let parts = (self.row + 1..).map_while(|row| self.rows.get(row));
        let rows = 1 + parts.take_while(|row| is_part_of_entry(row.kind)).count();
        self.item(What::Entry, self.past(entry.end), rows)
    }

    /// Behind the closing delimiter that stands here, after white space.
    fn past(&self, place: usize) -> usize {
        let mut cursor = Cursor::new(self.file, place..self.file.len());
        cursor.white();
        cursor.eat_any();
        cursor.place
    }

    /// What begins with an "@" and has no row of its own.
    fn other(&mut self) -> Item {
        let mut cursor = self.cursor();
        cursor.eat(b'@');
        let kind = cursor.ident().unwrap_or(cursor.place..cursor.place);
        cursor.white();
        cursor.eat_any();
        cursor.white();
        let kind = &self.file[kind];
        if kind.eq_ignore_ascii_case(b"string") {
            return self.definitions(cursor);
        }
        let preamble = self.next_row().filter(|row| row.kind == Kind::Preamble);
        match preamble {
            Some(row) if kind.eq_ignore_ascii_case(b"preamble") => {
                self.item(What::Preamble, self.past(row.end), 1)
            }
            _ => {
                cursor.until(b'}');
                self.item(What::Comment, self.past(cursor.place), 0)
            }
        }
    }

    /// The definitions of one `@string`, from behind its opening delimiter.
    fn definitions(&mut self, mut cursor: Cursor) -> Item {
        let mut row = self.row;
        while cursor.peek() != Some(b'}') && !cursor.is_done() {
            let Some(past) = self.definition(&mut row) else {
                break;
            };
            cursor.place = past;
            cursor.white();
            cursor.comment();
            cursor.white();
            if cursor.eat(b',') {
                cursor.white();
                cursor.comment();
                cursor.white();
            }
        }
        self.item(What::Definitions, self.past(cursor.place), row - self.row)
    }

    /// Goes over the rows of one definition, to the end of its value.
    fn definition(&self, row: &mut usize) -> Option<usize> {
        let kind = |row: usize| self.rows.get(row).map(|row| row.kind);
        if kind(*row) != Some(Kind::DefinitionName) {
            return None;
        }
        let value = self.rows.get(*row + 1)?;
        *row += 2;
        while matches!(kind(*row), Some(Kind::Literal | Kind::Name)) {
            *row += 1;
        }
        Some(value.end)
    }
}

fn is_part_of_entry(kind: Kind) -> bool {
    matches!(
        kind,
        Kind::EntryType | Kind::Key | Kind::FieldName | Kind::Value | Kind::Literal | Kind::Name
    )
}

impl Iterator for Items<'_> {
    type Item = Item;

    fn next(&mut self) -> Option<Item> {
        let end = self.outside_end();
        let mut cursor = Cursor::new(self.file, self.place..end);
        cursor.white();
        if !cursor.is_done() {
            return Some(self.item(What::Outside, end, 0));
        }
        self.place = end;
        match self.next_row() {
            Some(row) if row.kind == Kind::Damage && row.start == self.place => {
                Some(self.item(What::Damage, row.end, 2))
            }
            Some(row) if row.kind == Kind::Entry && row.start == self.place => {
                Some(self.entry(row))
            }
            _ if self.place < self.file.len() => Some(self.other()),
            _ => None,
        }
    }
}
