//! What is wrong in entries and definitions that were read.

use std::cmp::Ordering;
use std::ops::Range;

use super::finding::{Finding, Lint};
use super::items::Item;
use super::lists::{is_name_list, wrong_names};
use super::odd::Entry;
use super::refs::{by_letters, is_alone};
use super::text::{
    entry_in_value, field_in_value, has_typographic, is_typographic, key_name, quoted, TYPOGRAPHIC,
};
use super::{Checker, Stop};
use crate::memory::push;
use crate::{Kind, Refusal, Row, Rows};

/// Rows with the same text as an earlier one: the row, and the first that has it.
#[derive(Default)]
pub(crate) struct Repeats {
    pairs: Vec<(u32, u32)>,
    next: usize,
}

impl Repeats {
    /// Of these rows, which must rise. `order` says which texts are equal.
    fn of(
        rows: &Rows,
        mut which: Vec<u32>,
        order: impl Fn(Row, Row) -> Ordering,
    ) -> Result<Self, Refusal> {
        let row = |index: u32| rows.get(index as usize).expect("it is a row's number");
        which.sort_unstable_by(|a, b| order(row(*a), row(*b)).then(a.cmp(b)));
        let mut pairs = Vec::new();
        for group in which.chunk_by(|a, b| order(row(*a), row(*b)).is_eq()) {
            for other in &group[1..] {
                push(&mut pairs, (*other, group[0]))?;
            }
        }
        pairs.sort_unstable();
        Ok(Self { pairs, next: 0 })
    }

    /// The definitions of a file.
    pub fn of_names(file: &[u8], rows: &Rows) -> Result<Self, Refusal> {
        let which = numbers_of(rows, Kind::DefinitionName)?;
        Self::of(rows, which, |a, b| file[a.span()].cmp(&file[b.span()]))
    }

    /// The keys of a file. Where an earlier row has the same key only in other letters, that one is the first.
    pub fn of_keys(file: &[u8], rows: &Rows) -> Result<Self, Refusal> {
        let key = |index: u32| {
            let row = rows.get(index as usize).expect("it is a row's number");
            &file[row.span()]
        };
        let mut which = numbers_of(rows, Kind::Key)?;
        which.sort_unstable_by(|a, b| {
            let letters = by_letters(key(*a), key(*b));
            letters.then_with(|| key(*a).cmp(key(*b))).then(a.cmp(b))
        });
        let mut pairs = Vec::new();
        for group in which.chunk_by(|a, b| by_letters(key(*a), key(*b)).is_eq()) {
            let first = *group.iter().min().expect("a group has one at least");
            for same in group.chunk_by(|a, b| key(*a) == key(*b)) {
                if same[0] != first {
                    push(&mut pairs, (same[0], first))?;
                }
                for other in &same[1..] {
                    push(&mut pairs, (*other, same[0]))?;
                }
            }
        }
        pairs.sort_unstable();
        Ok(Self { pairs, next: 0 })
    }

    /// The fields of an entry, in small or large letters.
    fn in_entry(file: &[u8], rows: &Rows, range: Range<usize>) -> Result<Self, Refusal> {
        let small = |row: Row| file[row.span()].iter().map(u8::to_ascii_lowercase);
        let mut which = Vec::new();
        for index in range {
            if rows
                .get(index)
                .is_some_and(|row| row.kind == Kind::FieldName)
            {
                push(&mut which, index as u32)?;
            }
        }
        Self::of(rows, which, |a, b| small(a).cmp(small(b)))
    }

    /// The first row with the text of this one, if that is another. Rows are asked for as they rise.
    fn first_of(&mut self, row: usize) -> Option<usize> {
        let rest = &self.pairs[self.next..];
        self.next += rest
            .iter()
            .take_while(|pair| (pair.0 as usize) < row)
            .count();
        let pair = self.pairs.get(self.next)?;
        (pair.0 as usize == row).then_some(pair.1 as usize)
    }
}

/// The numbers of the rows of this kind, but of empty ones.
fn numbers_of(rows: &Rows, kind: Kind) -> Result<Vec<u32>, Refusal> {
    let mut which = Vec::new();
    for (index, row) in rows.iter().enumerate() {
        if row.kind == kind && row.start < row.end {
            push(&mut which, index as u32)?;
        }
    }
    Ok(which)
}

impl<E, S: FnMut(&Finding, &super::Lines) -> Result<(), E>> Checker<'_, S> {
    /// What is wrong in the rows of an entry; or of one `@string`, which has neither a key nor fields.
    pub(crate) fn rows_of(&mut self, item: &Item) -> Result<(), Stop<E>> {
        let key = item.rows.clone().filter_map(|index| self.rows.get(index));
        let key = key.take(3).find(|row| row.kind == Kind::Key);
        self.last_key = key.map(|row| row.span()).filter(|key| !key.is_empty());
        let name = key.map(|row| key_name(&self.file[row.span()]));
        let mut fields = Repeats::in_entry(self.file, self.rows, item.rows.clone())?;
        let mut entry = Entry::new(item.rows.clone(), name);
        let mut field = None;
        for index in item.rows.clone() {
            let Some(row) = self.rows.get(index) else {
                break;
            };
            let finding = match row.kind {
                Kind::Value => self.value(index, item)?,
                Kind::Key => self.key(index, row)?,
                Kind::FieldName => {
                    field = Some(row);
                    self.field(row, fields.first_of(index))?
                }
                Kind::DefinitionName => self.definition(index, row)?,
                Kind::Literal => self.literal(index, row, field),
                Kind::Name => self.name(row),
                _ => None,
            };
            if let Some(finding) = finding {
                self.say(finding.with_key(entry.key.clone()))?;
            }
            self.odd(index, row, field, &mut entry)?;
        }
        Ok(())
    }

    fn shown(&self, row: Row) -> String {
        quoted(&self.file[row.span()])
    }

    /// Where a row begins, as `LINE:COLUMN`.
    fn place_of(&mut self, row: usize) -> Result<String, Refusal> {
        let start = self.rows.get(row).map_or(0, |row| row.start);
        Ok(self.lines()?.place(start))
    }

    fn key(&mut self, index: usize, row: Row) -> Result<Option<Finding>, Refusal> {
        if row.start == row.end {
            let message = "this entry has no key".to_string();
            let hint = "write a key before the comma: nobody can cite the entry without one";
            let finding = Finding::of_row(Lint::EmptyKey, row, message);
            return Ok(Some(finding.with_hint(Some(hint.into()))));
        }
        if is_odd(&self.file[row.span()]) {
            return Ok(Some(self.odd_key(row)));
        }
        if let Some(mark) = odd_mark(&self.file[row.span()]) {
            let message = format!("the key {} has a {mark} in it", self.shown(row));
            let hint = "it is a part of the key, for whoever cites it: take it out";
            let finding = Finding::of_row(Lint::OddKey, row, message);
            return Ok(Some(finding.with_hint(Some(hint.into()))));
        }
        let first = self.keys.first_of(index);
        let is_other = |first: usize| {
            let first = self.rows.get(first);
            first.is_some_and(|first| self.file[first.span()] != self.file[row.span()])
        };
        if let Some(first) = first.filter(|first| is_other(*first)) {
            return Ok(Some(self.key_in_other_letters(row, first)?));
        }
        let words = ("the key ", " is that of another entry");
        self.repeated(Lint::DuplicateKey, row, first, words)
    }

    fn key_in_other_letters(&mut self, row: Row, first: usize) -> Result<Finding, Refusal> {
        let place = self.place_of(first)?;
        let other = self.rows.get(first).map(|first| self.shown(first));
        let message = format!(
            "the key {} differs from {}, at {place}, in small and large letters alone",
            self.shown(row),
            other.unwrap_or_default()
        );
        let hint = "to BibTeX they are the same: give one of them another key";
        let finding = Finding::of_row(Lint::KeyCase, row, message);
        Ok(finding.with_hint(Some(hint.into())))
    }

    fn odd_key(&self, row: Row) -> Finding {
        let is_entry = self.file.get(row.start) == Some(&b'@');
        let (what, hint) = if is_entry {
            ("an entry", "the entry before it was begun and not closed")
        } else {
            ("a field", "put a key and a comma before it")
        };
        let message = format!("the key {} looks like {what}", self.shown(row));
        Finding::of_row(Lint::OddKey, row, message).with_hint(Some(hint.into()))
    }

    fn field(&mut self, row: Row, first: Option<usize>) -> Result<Option<Finding>, Refusal> {
        let words = ("the entry has the field `", "` already");
        self.repeated(Lint::DuplicateField, row, first, words)
    }

    fn definition(&mut self, index: usize, row: Row) -> Result<Option<Finding>, Refusal> {
        let first = self.names.first_of(index);
        let hint = "the last definition counts, for uses before it too";
        let words = ("`", "` is defined already");
        let found = self.repeated(Lint::DuplicateDefinition, row, first, words)?;
        Ok(found.map(|finding| finding.with_hint(Some(hint.into()))))
    }

    /// A row whose text an earlier one has, with the words before and behind that text.
    fn repeated(
        &mut self,
        lint: Lint,
        row: Row,
        first: Option<usize>,
        (before, behind): (&str, &str),
    ) -> Result<Option<Finding>, Refusal> {
        let Some(first) = first else {
            return Ok(None);
        };
        let place = self.place_of(first)?;
        let message = format!("{before}{}{behind}, at {place}", self.shown(row));
        Ok(Some(Finding::of_row(lint, row, message)))
    }

    fn literal(&self, index: usize, row: Row, field: Option<Row>) -> Option<Finding> {
        let text = &self.file[row.span()];
        if let Some(key) = entry_in_value(text) {
            return Some(self.late(row, field, ("entry", &text[key])));
        }
        if let Some(swallowed) = field_in_value(text) {
            return Some(self.late(row, field, ("field", &text[swallowed])));
        }
        let is_list = field.is_some_and(|field| is_name_list(&self.file[field.span()]));
        // A value that is joined of parts may have its names in the others.
        if is_list && is_alone(self.rows, index) {
            return wrong_names(text, row.start);
        }
        None
    }

    /// A value that was closed too late. The delimiter stands before the literal.
    fn late(&self, row: Row, field: Option<Row>, (what, name): (&str, &[u8])) -> Finding {
        let mark = row.start.saturating_sub(1);
        let whose = field.map(|field| format!(" of `{}`", self.shown(field)));
        let message = format!(
            "the value{} holds what looks like the {what} `{}`",
            whose.unwrap_or_default(),
            quoted(name)
        );
        let what = if self.file.get(mark) == Some(&b'"') {
            "quotation mark"
        } else {
            "brace"
        };
        let hint = format!("the {what} that opens the value may be closed too late");
        let finding = Finding::of_row(Lint::LateClose, row, message);
        Finding { mark, ..finding }.with_hint(Some(hint))
    }

    fn name(&self, row: Row) -> Option<Finding> {
        let name = &self.file[row.span()];
        // Where it cannot be resolved, that is said already.
        let is_said = self.values.is_refused_at(row.start);
        (is_typographic(name) && !is_said).then(|| {
            let message = format!("{} is taken for the name of a definition", self.shown(row));
            Finding::of_row(Lint::TypographicQuotes, row, message)
                .with_hint(Some(TYPOGRAPHIC.into()))
        })
    }
}

/// Whether what stands in a key's place is something else: an entry, or a field `word=value` with
/// a number, a brace or a quotation mark.
pub(crate) fn is_odd(key: &[u8]) -> bool {
    let is_field = |equals: usize| {
        let (name, value) = (&key[..equals], &key[equals + 1..]);
        let is_name = !name.is_empty() && name.iter().all(u8::is_ascii_alphabetic);
        let is_number = !value.is_empty() && value.iter().all(u8::is_ascii_digit);
        is_name && (is_number || matches!(value, [b'{' | b'"', ..]))
    };
    let equals = key.iter().position(|byte| *byte == b'=');
    key.starts_with(b"@") || equals.is_some_and(is_field)
}

/// What a key has in it that was surely not meant as a part of it: a brace, a quotation mark, or a semicolon in
/// place of the comma. Names have apostrophes, so that these count only around the whole key.
fn odd_mark(key: &[u8]) -> Option<&'static str> {
    if key.contains(&b'{') {
        return Some("brace");
    }
    let is_around = matches!(key, [b'\'' | b'`', .., b'\'' | b'`']);
    if is_around || key.contains(&b'"') || has_typographic(key) {
        return Some("quotation mark");
    }
    let is_end = matches!(key, [b';', ..] | [.., b';']);
    is_end.then_some("semicolon")
}
