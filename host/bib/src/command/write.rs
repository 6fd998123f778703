//! `bib write`: every entry again as BibTeX, with its names and accents resolved. What cannot be resolved
//! is said on standard error, and its entry is not written, unless it is to be kept; and so is what a reader
//! of the written file gets otherwise. The last line there says how many entries were written.

use std::fs::File;
use std::io::{self, BufWriter, Write};
use std::path::Path;

use bib::check::{key_name, Explainer, Level, Places, Stop};
use bib::{is_verbatim_field, Refusal, ResolvedValue};

use crate::back::{Back, Changed};
use crate::entries::{opened, Entry, Field};
use crate::errors::Errors;
use crate::lending::Strings;
use crate::resolve::CHUNK;
use crate::source::{plain, Source};
use crate::tally::Tally;
use crate::wanted::Wanted;
use crate::words::Writing;
use crate::{say, shown, Status, Trouble, BUFFER};

/// The kind of a chunk that is a formula.
const FORMULA: u32 = 2;

pub fn write(how: &Writing, source: &Source, out: &mut impl Write) -> Result<Status, Trouble> {
    let strings = Strings::to(source, &how.strings)?;
    let file = source.file()?;
    match &how.to {
        None => written(&file, how, &strings, source, out),
        Some(path) => {
            let read = [source].into_iter().chain(strings.sources);
            let mut out = BufWriter::with_capacity(BUFFER, output(path, read)?);
            let written = written(&file, how, &strings, source, &mut out);
            written.map_err(|trouble| match trouble {
                Trouble::Output(error) => cannot_write(path, &error),
                other => other,
            })
        }
    }
}

/// The file that is to be written. It is none of those that are read: what is left out of it would be lost.
fn output<'a>(path: &Path, read: impl Iterator<Item = &'a Source>) -> Result<File, Trouble> {
    for source in read {
        if source.is_at(path) {
            let sentence = format!("{source} is the file that is read: write another one");
            return Err(Trouble::Input(sentence));
        }
    }
    File::create(path).map_err(|error| cannot_write(path, &error))
}

fn cannot_write(path: &Path, error: &io::Error) -> Trouble {
    let name = shown::name(path.as_os_str().as_encoded_bytes());
    Trouble::Input(format!("cannot write {name}: {}", plain(error)))
}

fn written(
    file: &[u8],
    how: &Writing,
    strings: &Strings,
    source: &Source,
    out: &mut impl Write,
) -> Result<Status, Trouble> {
    let mut said = Said {
        errors: Errors::of(source, strings.sources, how.strict),
        tally: Tally::default(),
        wanted: Wanted::of(&how.only),
        missing: Vec::new(),
    };
    let written = entries(file, how, strings, &mut said, out);
    if written.is_ok() {
        said.errors.left_out();
        said.errors.line(&said.tally.line());
    }
    said.errors.flush();
    for sentence in &said.missing {
        say(sentence);
        said.errors.found(Level::Error);
    }
    match written {
        Ok(()) => Ok(said.errors.status),
        Err(Stop::Caller(error)) => Err(Trouble::Output(error)),
        Err(Stop::Refused(_)) => Err(Trouble::Input(source.beyond_memory("write"))),
    }
}

/// What is said beside what is written.
struct Said<'a> {
    errors: Errors<'a>,
    tally: Tally,
    wanted: Wanted<'a>,
    /// A sentence for each key that no entry has.
    missing: Vec<String>,
}

fn entries(
    file: &[u8],
    how: &Writing,
    strings: &Strings,
    said: &mut Said,
    out: &mut impl Write,
) -> Result<(), Stop<io::Error>> {
    let name = said.errors.source.to_string();
    let opened = opened(how.limit, strings, (file, &name), |finding, lines| {
        let key = finding.key.as_deref().unwrap_or_default();
        if said.wanted.takes_name(key) {
            said.errors.finding(finding, lines);
            said.tally.found(finding, lines);
        }
        Ok(())
    })?;
    let Some(opened) = opened else { return Ok(()) };
    if how.only.is_empty() {
        said.tally.damaged = opened.damaged;
    }
    let mut writer = Writer {
        keeps: how.keep,
        explainer: opened.explainer()?,
        places: opened.places(),
        errors: &mut said.errors,
        tally: &mut said.tally,
        back: Back::new(),
        out,
    };
    for entry in opened.entries() {
        if said.wanted.takes(entry.key()) {
            writer.entry(&entry)?;
        }
    }
    writer.read_back()?;
    let (source, rows) = (writer.errors.source, &opened.reading.rows);
    said.missing = said.wanted.missing(source, file, rows);
    writer.out.flush().map_err(Stop::Caller)
}

/// What entries are written with.
struct Writer<'a, 'e, 's, W> {
    /// A field that cannot be resolved is written as it stands.
    keeps: bool,
    explainer: Option<Explainer<'a>>,
    places: Places<'a>,
    errors: &'e mut Errors<'s>,
    tally: &'e mut Tally,
    back: Back<'a, Mark<'a>>,
    out: W,
}

/// A field that was written: the number of its entry among those that were, that entry's key, and its
/// name with its place.
#[derive(Clone, Copy)]
struct Mark<'a> {
    entry: usize,
    key: &'a [u8],
    name: &'a [u8],
    place: usize,
}

impl<'a, W: Write> Writer<'a, '_, '_, W> {
    /// Writes an entry, or says why not.
    fn entry(&mut self, entry: &Entry<'a>) -> Result<(), Stop<io::Error>> {
        self.unresolved(entry)?;
        let unwhole = not_whole(entry)?;
        if let Some(field) = &unwhole {
            let place = self.places.lines()?.place(field.place);
            let why = "cannot be written: the braces of its formulas do not match";
            let message = said_of(field.name, entry.key(), why);
            self.errors.say(Level::Error, place, &message);
        }
        let is_whole = entry.unresolved.is_empty() && unwhole.is_none();
        if is_whole || self.keeps {
            return self.fields(entry);
        }
        let line = self.places.lines()?.number(entry.item.span.start);
        self.tally.leave_out(entry.key(), line);
        Ok(())
    }

    /// Says which fields of an entry cannot be resolved, and why.
    fn unresolved(&mut self, entry: &Entry) -> Result<(), Refusal> {
        let Some(explainer) = self.explainer.as_ref() else {
            return Ok(());
        };
        for one in entry.unresolved {
            let (finding, lines) = explainer.finding(one, &entry.item, &self.places)?;
            self.errors.finding(&finding, lines);
        }
        Ok(())
    }

    /// An entry as the Rust's lib.rs lays it out, but with type, key and names as the file has them.
    fn fields(&mut self, entry: &Entry<'a>) -> Result<(), Stop<io::Error>> {
        let between: &[u8] = if self.tally.written > 0 { b"\n" } else { b"" };
        self.tally.written += 1;
        self.put(&[between, b"@", entry.kind(), b"{", entry.key(), b",\n"])?;
        for field in entry.fields() {
            match written_as(&field)? {
                Some(text) => self.resolved(entry, &field, &text)?,
                None => self.kept(entry, &field)?,
            }
        }
        self.put(&[b"}\n"])
    }

    fn put(&mut self, parts: &[&[u8]]) -> Result<(), Stop<io::Error>> {
        let mut parts = parts.iter();
        let put = parts.try_for_each(|part| self.out.write_all(part));
        put.map_err(Stop::Caller)
    }

    /// Writes a field, and sees to it that it is read back.
    fn resolved(
        &mut self,
        entry: &Entry<'a>,
        field: &Field<'a>,
        text: &str,
    ) -> Result<(), Stop<io::Error>> {
        self.put(&[field.name, b" = ", text.as_bytes(), b",\n"])?;
        let mark = Mark {
            entry: self.tally.written,
            key: entry.key(),
            name: field.name,
            place: field.place,
        };
        if let Some(value) = field.value {
            self.back.add(field.name, text, value, mark)?;
        }
        if self.back.is_full() {
            self.read_back()?;
        }
        Ok(())
    }

    /// Writes a field as it stands in the file.
    fn kept(&mut self, entry: &Entry<'a>, field: &Field<'a>) -> Result<(), Stop<io::Error>> {
        self.put(&[field.name, b" = ", entry.source_of(field), b",\n"])?;
        self.tally.kept += 1;
        let place = self.places.lines()?.place(field.place);
        let what = "is written as it stands in the file (kept)";
        let message = said_of(field.name, entry.key(), what);
        self.errors.say(Level::Warning, place, &message);
        Ok(())
    }

    /// Says which fields do not come back.
    fn read_back(&mut self) -> Result<(), Stop<io::Error>> {
        for Changed { mark, why } in self.back.read()? {
            let place = self.places.lines()?.place(mark.place);
            let what = format!("is changed by writing: {why} (changed)");
            let message = said_of(mark.name, mark.key, &what);
            self.errors.say(Level::Warning, place, &message);
            self.tally.changed(mark.entry);
        }
        Ok(())
    }
}

/// A sentence about a field of the entry that has this key.
fn said_of(name: &[u8], key: &[u8], what: &str) -> String {
    let (name, key) = (key_name(name), key_name(key));
    match key.as_str() {
        "" => format!("`{name}` of the entry {what}"),
        _ => format!("`{name}` of entry {key} {what}"),
    }
}

/// The first field that would end too early, or not at all, as it is written. A formula is written as it
/// stands, with braces that may match no others; the braces of other text get backslashes.
fn not_whole<'a>(entry: &Entry<'a>) -> Result<Option<Field<'a>>, Refusal> {
    for field in entry.fields() {
        if field.value.is_some_and(has_formula) && written_as(&field)?.is_none() {
            return Ok(Some(field));
        }
    }
    Ok(None)
}

fn has_formula(value: ResolvedValue) -> bool {
    let mut rows = value.rows.chunks_exact(CHUNK);
    rows.any(|row| row[0] == FORMULA)
}

/// The value of a field as BibTeX, if it can be resolved and written.
fn written_as(field: &Field) -> Result<Option<String>, Refusal> {
    let Some(value) = field.value else {
        return Ok(None);
    };
    let is_verbatim = is_verbatim_field(field.name);
    let text = bib::to_biblatex_string(value.text.as_bytes(), value.rows, is_verbatim)?;
    let is_sure = !has_formula(value) || is_whole(text.as_bytes());
    Ok(is_sure.then_some(text))
}

/// Whether the brace that ends a text is the one that closes it, as strict reading counts them.
fn is_whole(text: &[u8]) -> bool {
    let (mut depth, mut place) = (0usize, 0);
    while place < text.len() {
        match text[place] {
            b'\\' => place += 1,
            b'{' => depth += 1,
            b'}' if depth <= 1 => return place + 1 == text.len(),
            b'}' => depth -= 1,
            _ => {}
        }
        place += 1;
    }
    false
}

#[cfg(test)]
mod tests {
    use super::*;

    #[test]
    fn whole_values() {
        for text in ["{}", "{a{b}c}", "{\\}}", "{\\{}", "{{}}"] {
            assert!(is_whole(text.as_bytes()), "{text}");
        }
        for text in ["", "{", "{$}$}", "{${$}", "{}}", "{\\}"] {
            assert!(!is_whole(text.as_bytes()), "{text}");
        }
    }
}
