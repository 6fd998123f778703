//! What else is wrong in the rows of an entry: names that are misspelt, values that are empty or cannot be,
//! and characters that were not meant.

use std::ops::Range;

use super::characters::{entity, mojibake, replaced};
use super::finding::{Finding, Lint, Lints};
use super::lists::is_name_list;
use super::misspelt::{meant_field, meant_type, Present};
use super::numbers::{wrong_date, wrong_pages, Wrong};
use super::refs::{is_alone, is_reference, keys_in, unknown_key, Keys};
use super::scripts::{invisible, look_alike};
use super::text::quoted;
use super::{Checker, Stop};
use crate::{Kind, Refusal, Row};

/// What is known of the entry that is gone over.
pub(crate) struct Entry {
    pub rows: Range<usize>,
    /// Its key, as findings have it.
    pub key: Option<String>,
    /// The fields that it has, where that was asked.
    present: Option<Present>,
    /// Whether others stand for its author, where that was asked.
    has_others: Option<bool>,
}

impl Entry {
    pub fn new(rows: Range<usize>, key: Option<String>) -> Self {
        Self {
            rows,
            key,
            present: None,
            has_others: None,
        }
    }
}

impl<E, S: FnMut(&Finding, &super::Lines) -> Result<(), E>> Checker<'_, S> {
    /// What is odd in this row, which stands behind the name of this field.
    pub(crate) fn odd(
        &mut self,
        index: usize,
        row: Row,
        field: Option<Row>,
        entry: &mut Entry,
    ) -> Result<(), Stop<E>> {
        // What is lost is found elsewhere.
        if !self.lints.has_more_than(Lints::LOST) {
            return Ok(());
        }
        match row.kind {
            Kind::EntryType | Kind::Key | Kind::FieldName | Kind::DefinitionName => {
                self.odd_name(row, entry)
            }
            Kind::Literal => self.odd_literal(index, row, field, entry),
            _ => Ok(()),
        }
    }

    /// Says what was found about an entry.
    fn tell(&mut self, finding: Option<Finding>, entry: &Entry) -> Result<(), Stop<E>> {
        match finding {
            Some(finding) => self.say(finding.with_key(entry.key.clone())),
            None => Ok(()),
        }
    }

    fn odd_name(&mut self, row: Row, entry: &mut Entry) -> Result<(), Stop<E>> {
        let name = &self.file[row.span()];
        if !name.is_ascii() {
            self.odd_characters(row, true, entry)?;
        }
        let meant = match row.kind {
            Kind::EntryType => meant_type(name),
            Kind::FieldName => meant_field(name).filter(|meant| !self.has_field(meant, entry)),
            _ => None,
        };
        let finding = meant.map(|meant| misspelt(row, name, meant));
        self.tell(finding, entry)
    }

    /// Whether an entry has a field. One that has the field that another may mean has that one on purpose.
    fn has_field(&self, name: &str, entry: &mut Entry) -> bool {
        let present = entry.present.get_or_insert_with(|| {
            let mut present = Present::default();
            let rows = entry.rows.clone().filter_map(|index| self.rows.get(index));
            for row in rows.filter(|row| row.kind == Kind::FieldName) {
                present.add(&self.file[row.span()]);
            }
            present
        });
        present.has(name)
    }

    /// Whether an entry has a field that stands for its author, and is not empty.
    fn has_others(&self, entry: &mut Entry) -> bool {
        let is_other = |index: &usize| {
            let row = self.rows.get(*index);
            let name = row.filter(|row| row.kind == Kind::FieldName);
            name.is_some_and(|name| {
                let is =
                    |other: &str| self.file[name.span()].eq_ignore_ascii_case(other.as_bytes());
                is("editor") || is("organization") || is("institution")
            })
        };
        // Behind its name stands the value, and then its first part.
        let part = |index: usize| self.rows.get(index + 2);
        let is_filled = |row: Row| !self.file[row.span()].trim_ascii().is_empty();
        let mut all = entry.rows.clone().filter(is_other);
        let has = &mut entry.has_others;
        *has.get_or_insert_with(|| all.any(|index| part(index).is_some_and(is_filled)))
    }

    /// Of a name all that is odd, of a text what another encoding left.
    fn odd_characters(&mut self, row: Row, is_name: bool, entry: &Entry) -> Result<(), Stop<E>> {
        let Ok(text) = std::str::from_utf8(&self.file[row.span()]) else {
            return Ok(());
        };
        let finds: &[fn(&str, usize) -> Option<Finding>] = if is_name {
            &[replaced, mojibake, invisible, look_alike]
        } else {
            &[replaced, mojibake]
        };
        for find in finds {
            self.tell(find(text, row.start), entry)?;
        }
        Ok(())
    }

    fn odd_literal(
        &mut self,
        index: usize,
        row: Row,
        field: Option<Row>,
        entry: &mut Entry,
    ) -> Result<(), Stop<E>> {
        let text = &self.file[row.span()];
        let name = field.map_or(&b""[..], |field| &self.file[field.span()]);
        if has_conflict(text) {
            self.conflicts(text, row.start)?;
        }
        if !text.is_ascii() {
            let is_name = is_name_list(name) || is_reference(name);
            self.odd_characters(row, is_name, entry)?;
        }
        self.tell(entity(text, row.start), entry)?;
        if is_alone(self.rows, index) {
            let finding = odd_value(name, text, row);
            self.tell(
                finding.or_else(|| self.empty(name, text, row, entry)),
                entry,
            )?;
            if is_reference(name) {
                self.unknown_keys(name, row, entry)?;
            }
        }
        Ok(())
    }

    /// An author or a title that is empty. Braces in it are put there on purpose; and so is an empty author where
    /// others stand for it.
    fn empty(&self, field: &[u8], text: &[u8], row: Row, entry: &mut Entry) -> Option<Finding> {
        let is = |name: &str| field.eq_ignore_ascii_case(name.as_bytes());
        if !(is("author") || is("title")) || !text.trim_ascii().is_empty() {
            return None;
        }
        if is("author") && self.has_others(entry) {
            return None;
        }
        let message = format!("the field `{}` is empty", quoted(field));
        let hint = "fill it in, or take it out";
        let finding = Finding::of_row(Lint::EmptyField, row, message);
        Some(finding.with_hint(Some(hint.into())))
    }

    /// Says which keys in this value no entry of the file has.
    fn unknown_keys(&mut self, field: &[u8], row: Row, entry: &Entry) -> Result<(), Stop<E>> {
        if !self.lints.has(Lint::UnknownCrossref) {
            return Ok(());
        }
        for key in keys_in(self.file, row.span()) {
            if !self.all_keys()?.has(&self.file[key.clone()]) {
                let finding = unknown_key(self.file, field, key);
                self.tell(Some(finding), entry)?;
            }
        }
        Ok(())
    }

    fn all_keys(&self) -> Result<&Keys<'_>, Refusal> {
        if self.all_keys.get().is_none() {
            let _ = self.all_keys.set(Keys::of(self.file, self.rows)?);
        }
        Ok(self.all_keys.get().expect("they were made"))
    }
}

/// Whether a line behind the first begins as a merge's lines do.
fn has_conflict(text: &[u8]) -> bool {
    let is_mark = |three: &[u8]| three == b"\n<<" || three == b"\n>>";
    // Most texts have neither.
    (text.contains(&b'<') || text.contains(&b'>')) && text.windows(3).any(is_mark)
}

fn misspelt(row: Row, name: &[u8], meant: &str) -> Finding {
    let (lint, what) = match row.kind {
        Kind::EntryType => (Lint::UnknownType, "entry type"),
        _ => (Lint::UnknownField, "field"),
    };
    let message = format!("the {what} `{}` is not known", quoted(name));
    let hint = format!("did you mean `{meant}`?");
    Finding::of_row(lint, row, message).with_hint(Some(hint))
}

/// What is wrong in the whole value of a field.
fn odd_value(field: &[u8], text: &[u8], row: Row) -> Option<Finding> {
    let is = |name: &str| field.eq_ignore_ascii_case(name.as_bytes());
    let (lint, wrong) = match is("pages") {
        true => (Lint::OddPages, wrong_pages(text)?),
        false => (Lint::OddDate, wrong_date(field, text)?),
    };
    let Wrong {
        span,
        message,
        hint,
    } = wrong;
    let finding = Finding::lint(lint, row.start + span.start, row.start + span.end, message);
    Some(finding.with_hint(Some(hint.into())))
}
