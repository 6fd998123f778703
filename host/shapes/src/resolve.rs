//! Fields resolved: names and TeX's commands.
//!
//! A field and the definitions that it needs are strings that may stand anywhere. So a file is laid out
//! of them, which the proved call resolves, and the places in its answer are turned back.

use std::collections::{HashMap, HashSet};

use proved::known::VERBATIM;
use proved::File;

use crate::chunk::Chunks;
use crate::lent::{self, Wanted};
use crate::raw::{Field, ParseError, RawChunk};
use crate::Spanned;

/// The words for months, and their texts.
pub use proved::known::MONTHS;

/// Resolves the field of this name, by these definitions and, for a name that has none, by the month
/// words.
pub fn parse_field(
    key: &str,
    field: &Field,
    abbreviations: &HashMap<&str, &Field<'_>>,
) -> Result<Chunks, ParseError> {
    let is_verbatim = VERBATIM.contains(&key);
    match &field[..] {
        [Spanned {
            v: RawChunk::Normal(text),
            span,
        }] => literal(text, span.start, is_verbatim),
        _ => Layout::of(field, abbreviations).resolve(is_verbatim),
    }
}

/// Resolves a field that is one literal, which is a file of its own.
fn literal(text: &str, start: usize, is_verbatim: bool) -> Result<Chunks, ParseError> {
    let place = |byte| byte + start;
    let chunks = lent::resolve(&Wanted::Literal(text), is_verbatim, place);
    chunks.map_err(|refusal| refusal.moved(place).of_source())
}

/// A file of a field and of the definitions that it needs, with its rows, and for each element where
/// it stands in the file and where it comes from.
struct Layout<'a, 's> {
    file: String,
    rows: Vec<u32>,
    elements: Vec<(usize, &'a Spanned<RawChunk<'s>>)>,
    /// The row of the field's value; nothing where the field has no elements.
    value: Option<usize>,
}

impl<'a, 's> Layout<'a, 's> {
    fn of(field: &'a Field<'s>, definitions: &HashMap<&str, &'a Field<'s>>) -> Self {
        let mut layout = Self {
            file: String::new(),
            rows: Vec::new(),
            elements: Vec::new(),
            value: None,
        };
        let needed = needed(field, definitions);
        let empty = empty(&needed);
        for (name, definition) in &needed {
            if !empty.contains(name) {
                layout.put(8, name);
                layout.value(definition, &empty);
            }
        }
        for kind in [1, 2, 3, 4] {
            layout.put(kind, "");
        }
        let value = layout.rows.len() / lent::ROW_NUMBERS;
        if layout.value(field, &empty) {
            layout.value = Some(value);
        }
        layout
    }

    /// Puts a text into the file, with something behind it so that no two touch, and makes it a row.
    fn put(&mut self, kind: u32, text: &str) {
        let from = self.file.len();
        self.file += text;
        let places = [from, self.file.len()];
        let [from, to] = places.map(|place| u32::try_from(place).unwrap_or(u32::MAX));
        self.rows.extend([kind, 0, from, to]);
        self.file.push('\n');
    }

    /// A value; whether it has an element.
    fn value(&mut self, field: &'a Field<'s>, empty: &HashSet<&str>) -> bool {
        self.put(5, "");
        let before = self.elements.len();
        for element in field {
            let (kind, text) = match element.v {
                RawChunk::Normal(text) => (6, text),
                RawChunk::Abbreviation(name) => (7, name),
            };
            if kind == 6 || !empty.contains(text) {
                self.elements.push((self.file.len(), element));
                self.put(kind, text);
            }
        }
        self.elements.len() > before
    }

    fn resolve(&self, is_verbatim: bool) -> Result<Chunks, ParseError> {
        let Some(value) = self.value else {
            return Ok(Vec::new());
        };
        let (months, words) = months();
        let file = File {
            bytes: self.file.as_bytes(),
            rows: &self.rows,
            months: &months,
            words: &words,
        };
        let place = |byte| self.place(byte);
        let chunks = lent::resolve(&Wanted::Value(file, value), is_verbatim, place);
        chunks.map_err(|refusal| {
            let name = match self.element(refusal.span.start).1.v {
                RawChunk::Normal(_) => "",
                RawChunk::Abbreviation(name) => name,
            };
            refusal.moved(place).named(name)
        })
    }

    /// The element that a byte of the file belongs to, or that ends there.
    fn element(&self, byte: usize) -> &(usize, &'a Spanned<RawChunk<'s>>) {
        let after = self.elements.partition_point(|(start, _)| *start <= byte);
        &self.elements[after.max(1) - 1]
    }

    /// Where a byte of the file comes from.
    fn place(&self, byte: usize) -> usize {
        let (start, element) = self.element(byte);
        element.span.start + byte.saturating_sub(*start)
    }
}

/// The definitions that a field needs, with those that they need, each once.
fn needed<'a, 's>(
    field: &'a Field<'s>,
    definitions: &HashMap<&str, &'a Field<'s>>,
) -> Vec<(&'a str, &'a Field<'s>)> {
    let (mut needed, mut seen) = (Vec::new(), HashSet::new());
    let mut fields = vec![field];
    while let Some(field) = fields.pop() {
        for element in field {
            let RawChunk::Abbreviation(name) = element.v else {
                continue;
            };
            if let (Some(definition), true) = (definitions.get(name), seen.insert(name)) {
                needed.push((name, *definition));
                fields.push(definition);
            }
        }
    }
    needed
}

/// The names of definitions that have no elements, or only names of such: they stand for nothing, and
/// a value of the file must have something.
fn empty<'a>(needed: &[(&'a str, &Field)]) -> HashSet<&'a str> {
    let mut empty = HashSet::new();
    loop {
        let before = empty.len();
        for (name, definition) in needed {
            let mut elements = definition.iter();
            if elements.all(|element| match element.v {
                RawChunk::Normal(_) => false,
                RawChunk::Abbreviation(name) => empty.contains(name),
            }) {
                empty.insert(*name);
            }
        }
        if empty.len() == before {
            return empty;
        }
    }
}

/// The month words as they are lent: for each four numbers, and the bytes that these are of.
fn months() -> (Vec<u32>, Vec<u8>) {
    let (mut numbers, mut words) = (Vec::new(), Vec::new());
    for part in MONTHS.iter().flat_map(|(word, text)| [word, text]) {
        numbers.push(words.len() as u32);
        words.extend_from_slice(part.as_bytes());
        numbers.push(words.len() as u32);
    }
    (numbers, words)
}
