//! `bib show --json`: entries as objects of JSON, with the bytes of all that they are made of, so that a
//! screen can lead back to the file.

use std::collections::HashMap;

use bib::check::Places;
use bib::{Refusal, ResolvedValue};

use crate::entries::{Entry, Field};
use crate::json::Object;
use crate::report::of_file;
use crate::resolve::CHUNK;
use crate::source::Source;

/// What the kinds of chunks are called, in the order of their numbers.
const KINDS: [&str; 3] = ["normal", "verbatim", "formula"];

/// What entries are shown by: where things stand, and whether titles are shown in sentence case.
pub struct Screen<'a> {
    pub source: &'a Source,
    pub places: &'a Places<'a>,
    pub sentence: bool,
    pub definitions: HashMap<&'a [u8], usize>,
}

impl Screen<'_> {
    /// An entry. What keeps each of its fields from being resolved is handed in, in their order.
    pub fn entry(&self, entry: &Entry, errors: &[Option<Object>]) -> Result<Object, Refusal> {
        let span = &entry.item.span;
        let object = of_file(self.source)
            .text("type", text(entry.kind()))
            .text("key", text(entry.key()));
        let object = self.placed(object, span.start, span.end)?;
        let mut fields = Vec::new();
        for (field, error) in entry.fields().zip(errors) {
            fields.push(self.field(entry, &field, error.as_ref())?);
        }
        Ok(object.list("fields", fields.into_iter()))
    }

    fn field(
        &self,
        entry: &Entry,
        field: &Field,
        error: Option<&Object>,
    ) -> Result<Object, Refusal> {
        let value = entry.span_of(field);
        let object = Object::new().text("name", text(field.name));
        let object = self.placed(object, field.place, field.place + field.name.len())?;
        let object = object
            .number("value_start", value.start)
            .number("value_end", value.end);
        let shown = field
            .value
            .map(|value| entry.text_of(field, value, self.sentence));
        let object = object.maybe("text", shown.transpose()?.as_deref());
        let mut chunks = Vec::new();
        if let Some(value) = field.value {
            self.chunks(value, &mut chunks)?;
        }
        let mut names = Vec::new();
        for (name, place) in entry.names_of(field) {
            names.push(self.name(name, place)?);
        }
        let error = error.map_or("null".to_string(), Object::whole);
        let object = object.list("chunks", chunks.into_iter());
        Ok(object
            .list("names", names.into_iter())
            .json("error", &error))
    }

    /// The chunks of a value. One that is joined of several parts has the start of the first and the end
    /// of the last.
    fn chunks(&self, value: ResolvedValue, all: &mut Vec<Object>) -> Result<(), Refusal> {
        for row in value.rows.chunks_exact(CHUNK) {
            let [kind, from, to, start, end] = [0, 1, 2, 3, 4].map(|n| row[n] as usize);
            let mut object = Object::new()
                .text("kind", KINDS[kind])
                .text("text", &value.text[from..to]);
            for (name, lender, place) in
                [("start", "start_lender", start), ("end", "end_lender", end)]
            {
                let (place, lines) = self.places.at(place)?;
                object = object.number(name, place);
                if let Some(number) = lines.lender() {
                    object = object.number(lender, number + 1);
                }
            }
            all.push(object);
        }
        Ok(())
    }

    /// A name that is used, and where it is defined.
    fn name(&self, name: &[u8], place: usize) -> Result<Object, Refusal> {
        let object = Object::new().text("name", text(name));
        let object = self.placed(object, place, place + name.len())?;
        let definition = match self.definitions.get(name) {
            None => "null".to_string(),
            Some(place) => self
                .placed(Object::new(), *place, *place + name.len())?
                .end(),
        };
        Ok(object.json("definition", &definition))
    }

    /// A place: line and column, and its bytes; and the number of the file that lends it, if one does.
    fn placed(&self, object: Object, start: usize, end: usize) -> Result<Object, Refusal> {
        let length = end - start;
        let (start, lines) = self.places.at(start)?;
        let (line, column) = lines.line_and_column(start);
        let object = object
            .number("line", line)
            .number("column", column)
            .number("start", start)
            .number("end", start + length);
        Ok(match lines.lender() {
            None => object,
            Some(number) => object.number("lender", number + 1),
        })
    }
}

/// What was read is UTF-8.
fn text(bytes: &[u8]) -> &str {
    std::str::from_utf8(bytes).expect("what strict reading accepts is UTF-8")
}
