//! Titles formatted in sentence case, and verbatim beside it: the proved calls and the Rust's functions.
//!
//! The titles are the values of all fields whose names end with "title", of the files that strict reading
//! accepts. They are resolved beforehand, once, and each function is given what that came to: the proved
//! calls its rows and its text, which stand behind each other as one call over a whole file leaves them, and
//! the Rust's its chunks. The Rust allocates what it answers; the proved calls write into memory that is there
//! and was written before. MB are of the chunks' texts.

use std::hint::black_box;
use std::ops::Range;
use std::path::PathBuf;

use cases::fields::Months;
use oracle::chunk::Chunks;
use oracle::{ChunksExt, Fields, Given, Kind, Resolved, CHUNK_NUMBERS, LEAST_SCRATCH};
use proved::Answer;

use crate::timing::Times;
use crate::wholes::rows;

/// So many times all titles are formatted in one run, so that a clock can tell.
const TIMES: usize = 10;

/// A title: where its rows and its text stand, and the Rust's own form of it.
struct Title {
    rows: Range<usize>,
    text: Range<usize>,
    chunks: Chunks,
}

/// All titles, one behind the other.
#[derive(Default)]
struct Titles {
    rows: Vec<u32>,
    text: Vec<u8>,
    all: Vec<Title>,
}

/// A way to format: the proved call, and the Rust's function.
struct Way {
    name: &'static str,
    proved: fn(&[u8], &[u32], &mut [u8]) -> Answer,
    rust: fn(&Chunks) -> String,
}

const WAYS: [Way; 2] = [
    Way {
        name: "in sentence case",
        proved: proved::format_sentence,
        rust: |chunks| chunks.format_sentence(),
    },
    Way {
        name: "verbatim",
        proved: proved::format_verbatim,
        rust: |chunks| chunks.format_verbatim(),
    },
];

impl Titles {
    /// Adds the titles of a file, if it is accepted.
    fn add_file(&mut self, file: &[u8]) {
        if oracle::read(file).is_err() {
            return;
        }
        let (rows, months) = (rows(file), Months::english());
        let are_titles = are_titles(file, &rows);
        let fields = Fields::new(Given {
            file,
            rows: &rows,
            months: &months.numbers,
            words: &months.words,
        });
        let resolved = fields.resolve_all(&vec![0; are_titles.len()], LEAST_SCRATCH);
        let values = resolved.expect("a file that is accepted").into_iter();
        for (value, is_title) in values.zip(are_titles) {
            if let (Ok(value), true) = (value, is_title) {
                self.add(&value);
            }
        }
    }

    fn add(&mut self, value: &Resolved) {
        let chunks = oracle::chunks(&value.text, &value.rows);
        let (row, text) = (self.rows.len(), self.text.len());
        self.rows.extend_from_slice(&value.rows);
        self.text.extend_from_slice(&value.text);
        self.all.push(Title {
            rows: row..self.rows.len(),
            text: text..self.text.len(),
            chunks: chunks.expect("what is resolved is sound"),
        });
    }

    /// Bytes that are enough for every one of them.
    fn room(&self) -> Vec<u8> {
        let most = |title: &Title| 3 * title.text.len() + 2 * title.rows.len() / CHUNK_NUMBERS;
        vec![1; self.all.iter().map(most).max().unwrap_or(0)]
    }

    /// A title formatted by the proved call.
    fn formatted<'a>(&self, title: &Title, way: &Way, bytes: &'a mut [u8]) -> &'a [u8] {
        let (text, rows) = (
            &self.text[title.text.clone()],
            &self.rows[title.rows.clone()],
        );
        let answer = (way.proved)(text, rows, bytes);
        assert_eq!(answer.number, 0, "chunks of resolving are sound");
        &bytes[..answer.count as usize]
    }

    /// Times both. They must agree: a benchmark of a wrong answer says nothing.
    fn measure(&self, way: &Way, rounds: usize) {
        let mut bytes = self.room();
        for title in &self.all {
            let rust = (way.rust)(&title.chunks);
            let same = self.formatted(title, way, &mut bytes) == rust.as_bytes();
            assert!(same, "they differ on {:?}", title.chunks);
        }
        let (mut rust, mut proved) = (Times::new(), Times::new());
        for _ in 0..rounds {
            rust.run(|| self.sum(|title| black_box((way.rust)(&title.chunks)).len()));
            proved
                .run(|| self.sum(|title| black_box(self.formatted(title, way, &mut bytes)).len()));
        }
        let (bytes, ratio) = (TIMES * self.text.len(), rust.ratio(&proved));
        println!("  {}", way.name);
        println!("    Rust   {}", rust.speed(bytes));
        println!("    proved {}, ratio {ratio}", proved.speed(bytes));
    }

    /// What all titles come to, so many times.
    fn sum(&self, mut each: impl FnMut(&Title) -> usize) -> usize {
        let mut sum = 0;
        for _ in 0..TIMES {
            sum += self.all.iter().map(&mut each).sum::<usize>();
        }
        sum
    }
}

/// Of each value, in the order of the rows, whether it is a title's.
fn are_titles(file: &[u8], rows: &[u32]) -> Vec<bool> {
    let (mut all, mut is_title) = (Vec::new(), false);
    for row in rows.chunks_exact(4) {
        if row[0] == Kind::FieldName as u32 {
            let name = file[row[2] as usize..row[3] as usize].to_ascii_lowercase();
            is_title = name.ends_with(b"title");
        } else if row[0] == Kind::DefinitionName as u32 {
            is_title = false;
        } else if row[0] == Kind::Value as u32 {
            all.push(is_title);
        }
    }
    all
}

pub fn run(folders: &[PathBuf], rounds: usize) {
    let mut titles = Titles::default();
    for file in cases::files(folders) {
        titles.add_file(&file);
    }
    if titles.all.is_empty() {
        println!("no real title: name a folder that has .bib files");
        return;
    }
    let (count, bytes) = (titles.all.len(), titles.text.len());
    let chunks = titles.rows.len() / CHUNK_NUMBERS;
    println!("titles formatted: {count} of {chunks} chunks and {bytes} bytes, resolved beforehand");
    for way in &WAYS {
        titles.measure(way, rounds);
    }
}
