//! The entries of a file with their fields resolved, for the works that print them.

use bib::check::{
    check_reading, Explainer, Finding, Item, Items, Lines, Lints, Places, Reading, Stop,
    Unresolved, What,
};
use std::collections::HashMap;
use std::ops::Range;

use bib::{is_title_field, Kind, Refusal, ResolvedFile, ResolvedValue, Row};

use crate::lending::Strings;
use crate::words::Limit;

/// A file that was read, and whose values are resolved.
pub struct Opened<'a> {
    file: &'a [u8],
    pub reading: Reading<'a>,
    values: ResolvedFile,
    /// How many entries its damaged pieces have.
    pub damaged: usize,
}

/// Reads a file and resolves its values; says what is damaged, and what is lost though it is read, as
/// `bib check` does. Nothing where the file is too long, which is said too. It has this name where a lender's
/// definition is at fault.
pub fn opened<'a, E>(
    limit: Limit,
    strings: &'a Strings,
    (file, name): (&'a [u8], &'a str),
    say: impl FnMut(&Finding, &Lines) -> Result<(), E>,
) -> Result<Option<Opened<'a>>, Stop<E>> {
    let reading = strings.reading(file, name);
    let damaged = check_reading(file, &reading, Lints::LOST, say)?.damaged;
    let Ok(mut reading) = reading else {
        return Ok(None);
    };
    let values = reading.resolve(limit.0, file)?;
    Ok(Some(Opened {
        file,
        reading,
        values,
        damaged,
    }))
}

impl Opened<'_> {
    pub fn entries(&self) -> Entries<'_> {
        Entries {
            opened: self,
            items: Items::of(self.file, &self.reading.rows),
            values: 0,
            unresolved: &self.reading.unresolved,
        }
    }

    /// What says why values cannot be resolved; nothing where all are.
    pub fn explainer(&self) -> Result<Option<Explainer<'_>>, Refusal> {
        if self.reading.unresolved.is_empty() {
            return Ok(None);
        }
        Explainer::of(self.file, &self.reading).map(Some)
    }

    pub fn places(&self) -> Places<'_> {
        Places::of(self.file, &self.reading)
    }

    /// The place of each name's definition that counts, which is the last; those of the file come behind
    /// lent ones.
    pub fn definitions(&self) -> Result<HashMap<&[u8], usize>, Refusal> {
        let own = self.reading.rows.iter();
        let own = own.filter(|row| row.kind == Kind::DefinitionName);
        let own = own.map(|row| (&self.file[row.span()], row.start));
        let lent = self.reading.lending.iter();
        let lent = lent.flat_map(|lending| lending.lent.names());
        let mut all = HashMap::new();
        for (name, place) in lent.chain(own) {
            all.try_reserve(1)?;
            all.insert(name, place);
        }
        Ok(all)
    }
}

/// The entries of a file, one after the other.
pub struct Entries<'a> {
    opened: &'a Opened<'a>,
    items: Items<'a>,
    /// How many values stand before the next item.
    values: usize,
    /// The values from there on that cannot be resolved.
    unresolved: &'a [Unresolved],
}

pub struct Entry<'a> {
    opened: &'a Opened<'a>,
    pub item: Item,
    /// The number of its first value.
    first: usize,
    /// Its values that cannot be resolved.
    pub unresolved: &'a [Unresolved],
}

/// The name of a field and its place, and what its value is resolved to, if that can be.
pub struct Field<'a> {
    pub name: &'a [u8],
    pub place: usize,
    /// The number of its value's row.
    row: usize,
    pub value: Option<ResolvedValue<'a>>,
}

impl<'a> Iterator for Entries<'a> {
    type Item = Entry<'a>;

    fn next(&mut self) -> Option<Entry<'a>> {
        loop {
            let item = self.items.next()?;
            let rows = &self.opened.reading.rows;
            let kinds = item.rows.clone().filter_map(|row| rows.get(row));
            let first = self.values;
            self.values += kinds.filter(|row| row.kind == Kind::Value).count();
            let own = self.unresolved.iter();
            let own = own.take_while(|one| one.value() < item.rows.end).count();
            let (unresolved, rest) = self.unresolved.split_at(own);
            self.unresolved = rest;
            if item.what == What::Entry {
                return Some(Entry {
                    opened: self.opened,
                    item,
                    first,
                    unresolved,
                });
            }
        }
    }
}

impl<'a> Entry<'a> {
    /// The text of the first row of this kind.
    fn text(&self, kind: Kind) -> &'a [u8] {
        let Opened { file, reading, .. } = self.opened;
        // The entry itself, its type, its key.
        let rows = self.item.rows.clone().take(3);
        let mut rows = rows.filter_map(|row| reading.rows.get(row));
        let row = rows.find(|row| row.kind == kind);
        row.map_or(&[], |row| &file[row.span()])
    }

    pub fn kind(&self) -> &'a [u8] {
        self.text(Kind::EntryType)
    }

    pub fn key(&self) -> &'a [u8] {
        self.text(Kind::Key)
    }

    /// Its fields in file order. Each name has one value.
    pub fn fields(&self) -> impl Iterator<Item = Field<'a>> + '_ {
        let Opened {
            file,
            reading,
            values,
            ..
        } = self.opened;
        let rows = self.item.rows.clone();
        let rows = rows.filter_map(|row| Some((row, reading.rows.get(row)?)));
        let names = rows.filter(|(_, row)| row.kind == Kind::FieldName);
        names.zip(self.first..).map(|((row, name), value)| Field {
            name: &file[name.span()],
            place: name.start,
            row: row + 1,
            value: values.get(value).and_then(Result::ok),
        })
    }

    /// The text of a field's value; where titles are wanted in sentence case, that of a title is.
    pub fn text_of(
        &self,
        field: &Field,
        value: ResolvedValue,
        sentence: bool,
    ) -> Result<String, Refusal> {
        let text = value.text.as_bytes();
        if sentence && is_title_field(self.kind(), field.name) {
            return bib::format_sentence(text, value.rows);
        }
        bib::format_verbatim(text, value.rows)
    }

    /// The parts of a field's value: literals and names.
    fn parts_of(&self, field: &Field) -> impl Iterator<Item = Row> + 'a {
        let rows = &self.opened.reading.rows;
        let parts = (field.row + 1..).map_while(|row| rows.get(row));
        parts.take_while(|row| matches!(row.kind, Kind::Literal | Kind::Name))
    }

    /// The names that stand in the value of a field, each with its place.
    pub fn names_of(&self, field: &Field) -> impl Iterator<Item = (&'a [u8], usize)> {
        let file = self.opened.file;
        let names = self.parts_of(field).filter(|row| row.kind == Kind::Name);
        names.map(|row| (&file[row.span()], row.start))
    }

    /// The value of a field as it stands in the file, without the white space and the comment behind it.
    pub fn source_of(&self, field: &Field) -> &'a [u8] {
        &self.opened.file[self.span_of(field)]
    }

    /// Its bytes.
    pub fn span_of(&self, field: &Field) -> Range<usize> {
        let Opened { file, reading, .. } = self.opened;
        let start = reading.rows.get(field.row).map_or(0, |row| row.start);
        let end = self.parts_of(field).last().map_or(start, |part| {
            // The row of a literal is without its braces or quotation marks; a number has none.
            let before = part.start.checked_sub(1).map(|before| file[before]);
            let is_delimited = part.kind == Kind::Literal && matches!(before, Some(b'{' | b'"'));
            part.end + usize::from(is_delimited)
        });
        start..end
    }
}
