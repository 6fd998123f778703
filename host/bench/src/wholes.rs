//! All fields of a file resolved and then formatted verbatim: one proved call over the whole file, and
//! a call that formats for each field, beside the Rust's functions for each field.
//!
//! Both are given the file as it was read, as rows and as the Rust's own form. The Rust makes its map of
//! the definitions and then, for each field, calls `parse_field` and `format_verbatim`, which allocate;
//! the proved call makes its index and resolves the definitions' values too, and writes into memory that
//! is there and was written before. MB are of the file's bytes.

use std::collections::HashMap;
use std::hint::black_box;
use std::path::PathBuf;

use cases::fields::{Months, ENGLISH};
use oracle::mechanics::is_verbatim_field;
use oracle::raw::{Field, RawBibliography};
use oracle::resolve::parse_field;
use oracle::types::lending_months;
use oracle::{ChunksExt, Kind, Row, CHUNK_NUMBERS};
use proved::{File, LentForFile, ANSWER_NUMBERS};

use crate::shapes::{self, Shape};
use crate::timing::{growth, the_rust, Times};

/// Refusals that the Rust does not know: too long a literal, cyclic, too deep, and too many names.
const ADDED: [u32; 4] = [1, 13, 14, 15];

/// A file as it was read, with flags and months.
pub struct Read<'a> {
    text: &'a [u8],
    rows: Vec<u32>,
    flags: Vec<u8>,
    /// The numbers of the values that are a field's.
    fields: Vec<usize>,
    months: Months,
}

impl<'a> Read<'a> {
    pub fn new(text: &'a [u8], rows: Vec<u32>) -> Self {
        let (mut flags, mut fields, mut name) = (Vec::new(), Vec::new(), None);
        for row in rows.chunks_exact(4) {
            let part = &text[row[2] as usize..row[3] as usize];
            if row[0] == Kind::FieldName as u32 {
                name = std::str::from_utf8(part).ok();
            } else if row[0] == Kind::DefinitionName as u32 {
                name = None;
            } else if row[0] == Kind::Value as u32 {
                if name.is_some() {
                    fields.push(flags.len());
                }
                flags.push(name.is_some_and(is_verbatim_field).into());
            }
        }
        let months = Months::english();
        Self {
            text,
            rows,
            flags,
            fields,
            months,
        }
    }

    fn file(&self) -> File<'_> {
        File {
            bytes: self.text,
            rows: &self.rows,
            months: &self.months.numbers,
            words: &self.months.words,
        }
    }
}

/// What the proved calls are lent for a file, over and over.
pub struct Rooms {
    scratch: Vec<u8>,
    heads: Vec<u32>,
    next: Vec<u32>,
    answers: Vec<u32>,
    chunks: Vec<u32>,
    text: Vec<u8>,
    /// One field, formatted.
    bytes: Vec<u8>,
}

impl Rooms {
    /// As much as files of few names need for one pass. Zeros, so that only what is written takes memory.
    fn for_rows(read: &Read) -> Self {
        let rows = read.rows.len() / 4;
        Self {
            scratch: vec![1; proved::LEAST_SCRATCH],
            heads: vec![1; rows / 2 + 1],
            next: vec![1; rows],
            answers: vec![1; ANSWER_NUMBERS * read.flags.len()],
            chunks: vec![0; CHUNK_NUMBERS * (read.text.len() + rows)],
            text: vec![0; 2 * read.text.len()],
            bytes: Vec::new(),
        }
    }

    /// As much as this file needs.
    pub fn of(read: &Read) -> Self {
        let mut rooms = Self::for_rows(read);
        while !rooms.resolve(read) {
            rooms.chunks.resize(2 * rooms.chunks.len(), 1);
            rooms.text.resize(2 * rooms.text.len(), 1);
        }
        rooms.bytes = vec![0; rooms.text.len() + rooms.chunks.len()];
        rooms
    }

    /// Resolves all values, if there is room.
    fn resolve(&mut self, read: &Read) -> bool {
        let mut lent = LentForFile {
            scratch: &mut self.scratch,
            heads: &mut self.heads,
            next: &mut self.next,
            answers: &mut self.answers,
            chunks: &mut self.chunks,
            text: &mut self.text,
        };
        proved::resolve_file(read.file(), &read.flags, &mut lent).number == 0
    }

    /// Why a value is refused, or 0.
    fn refusal(&self, value: usize) -> u32 {
        self.answers[ANSWER_NUMBERS * value]
    }

    /// Formats a value that was resolved.
    fn formatted(&mut self, value: usize) -> &[u8] {
        let answer = &self.answers[ANSWER_NUMBERS * value..][..ANSWER_NUMBERS];
        let [first, last, from, to] = [2, 3, 4, 5].map(|n| answer[n] as usize);
        let rows = &self.chunks[CHUNK_NUMBERS * first..CHUNK_NUMBERS * last];
        let formatted = proved::format_verbatim(&self.text[from..to], rows, &mut self.bytes);
        assert_eq!(formatted.number, 0, "chunks of resolving are sound");
        &self.bytes[..formatted.count as usize]
    }

    /// Resolves all values and formats the fields; gives how many bytes came of them.
    pub fn resolve_and_format(&mut self, read: &Read) -> usize {
        assert!(self.resolve(read), "there is room");
        self.format(read)
    }

    /// Formats every field that was resolved, one by one; gives how many bytes came of it.
    fn format(&mut self, read: &Read) -> usize {
        let mut bytes = 0;
        for &value in &read.fields {
            if self.refusal(value) == 0 {
                bytes += self.formatted(value).len();
            }
        }
        bytes
    }
}

/// The Rust's map of definitions: the last of a name counts.
fn map<'a>(raw: &'a RawBibliography<'a>) -> HashMap<&'a str, &'a Field<'a>> {
    let definitions = raw.abbreviations.iter();
    definitions.map(|d| (d.key.v, &d.value.v)).collect()
}

/// The map, and every field that is not skipped resolved and formatted; gives how many bytes came of it.
fn of_rust(raw: &RawBibliography, skipped: &[bool]) -> usize {
    let map = map(black_box(raw));
    let fields = raw.entries.iter().flat_map(|entry| &entry.v.fields);
    let each = fields.zip(skipped).map(|(field, is_skipped)| {
        if *is_skipped {
            return 0;
        }
        match parse_field(field.key.v, &field.value.v, &map) {
            Ok(chunks) => black_box(chunks.format_verbatim()).len(),
            Err(_) => 0,
        }
    });
    each.sum()
}

/// Which fields 01 refuses and the Rust does not, of which there is no time to compare. On all others
/// both agree: a benchmark of a wrong answer says nothing.
fn agreed(read: &Read, raw: &RawBibliography, rooms: &mut Rooms) -> Vec<bool> {
    let map = map(raw);
    let fields = raw.entries.iter().flat_map(|entry| &entry.v.fields);
    let each = fields.zip(&read.fields).map(|(field, &value)| {
        let refusal = rooms.refusal(value);
        if ADDED.contains(&refusal) {
            return true;
        }
        match parse_field(field.key.v, &field.value.v, &map) {
            Ok(chunks) => {
                let formatted = chunks.format_verbatim();
                let same = refusal == 0 && rooms.formatted(value) == formatted.as_bytes();
                assert!(same, "the resolvers differ on {:?}", field.value);
            }
            Err(error) => assert!(refusal != 0, "only the Rust refuses: {error}"),
        }
        false
    });
    each.collect()
}

/// Measured for one file: the Rust, the proved calls, and of these resolving alone.
struct Measured {
    bytes: usize,
    rust: Times,
    whole: Times,
    resolving: Times,
}

fn measure(text: &[u8], rounds: usize) -> Measured {
    let raw = the_rust(text);
    let read = Read::new(text, rows(text));
    let mut rooms = Rooms::of(&read);
    let (mut rust, mut whole, mut resolving) = (Times::new(), Times::new(), Times::new());
    let (skipped, refused) = lending_months(&ENGLISH, || {
        let skipped = agreed(&read, &raw, &mut rooms);
        for _ in 0..rounds {
            rust.run(|| of_rust(&raw, &skipped));
            whole.run(|| rooms.resolve_and_format(&read));
            resolving.run(|| rooms.resolve(&read));
        }
        let refused = read
            .fields
            .iter()
            .filter(|value| rooms.refusal(**value) != 0);
        (skipped.iter().filter(|is| **is).count(), refused.count())
    });
    println!(
        "  {} bytes, {} fields, {} definitions; {refused} fields refused, {skipped} of them not by the Rust",
        text.len(),
        read.fields.len(),
        read.flags.len() - read.fields.len(),
    );
    let measured = Measured {
        bytes: text.len(),
        rust,
        whole,
        resolving,
    };
    measured.print();
    measured
}

impl Measured {
    fn print(&self) {
        let (bytes, rust, whole) = (self.bytes, &self.rust, &self.whole);
        println!("    Rust      {}", rust.speed(bytes));
        println!(
            "    one call  {}, ratio {}; {:.2} s",
            whole.speed(bytes),
            rust.ratio(whole),
            whole.best()
        );
        let part = self.resolving.ratio(whole);
        println!(
            "    resolving {}, {part} of its time",
            self.resolving.speed(bytes)
        );
    }

    /// Prints how the times grew to those of a longer file.
    fn grown(&self, longer: &Self) {
        let times = [
            ("Rust", &self.rust, &longer.rust),
            ("one call", &self.whole, &longer.whole),
        ];
        growth(self.bytes, longer.bytes, &times);
    }
}

/// The rows that reading gives, as numbers.
pub fn rows(text: &[u8]) -> Vec<u32> {
    let rows = oracle::read(text).expect("the Rust accepts every shape");
    let numbers = |row: &Row| [row.kind, row.detail, row.start, row.end];
    rows.iter().flat_map(numbers).collect()
}

fn at_two_sizes(shape: &Shape, rounds: usize) {
    println!("all fields of {}", shape.name);
    measure(&shape.small, rounds).grown(&measure(&shape.full, rounds));
}

pub fn run(folders: &[PathBuf], rounds: usize) {
    match shapes::real(folders) {
        Some(shape) => at_two_sizes(&shape, rounds),
        None => println!("no real file: name a folder that has .bib files"),
    }
    at_two_sizes(&shapes::definitions(), rounds);
    growing("real files", shapes::doubling(folders), rounds);
}

/// All fields of files, each of twice the bytes of the one before.
pub fn growing(name: &str, texts: impl IntoIterator<Item = Vec<u8>>, rounds: usize) {
    let mut before: Option<Measured> = None;
    for text in texts {
        println!("all fields of {name}");
        let measured = measure(&text, rounds);
        if let Some(before) = &before {
            before.grown(&measured);
        }
        before = Some(measured);
    }
}
