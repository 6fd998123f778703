//! What is refused, beside the Rust: strict reading of files that are wrong at their end, and salvage of
//! files whose pieces are all damaged.
//!
//! The Rust drops what it has read where it refuses, and that is in its time. Its salvage is the oracle's:
//! 01's cutting around the Rust's reading of each piece. The proved reader is lent no rows for a file that
//! is refused, since it writes none; rows of salvage are written into memory that is there and was written
//! before.

use std::hint::black_box;
use std::path::PathBuf;
use std::sync::atomic::{AtomicBool, Ordering};

use oracle::raw::{ParseError, RawBibliography};
use oracle::{Kind, Row};
use proved::Answer;

use crate::salvage::agreed_rows;
use crate::shapes::{self, Shape};
use crate::timing::{growth, Times};

/// Whether the library that is timed is one of before 02's "Underline the culprit".
static EMPTY_PLACES: AtomicBool = AtomicBool::new(false);

/// From here on the library must give empty places where it refuses: the Rust's starts, and no ends.
pub fn with_empty_places() {
    EMPTY_PLACES.store(true, Ordering::Relaxed);
}

/// Where a refusal must end that the oracle has at start..end.
fn end_of(start: u32, end: u32) -> u32 {
    match EMPTY_PLACES.load(Ordering::Relaxed) {
        true => start,
        false => end,
    }
}

/// The rows that salvage must give.
pub fn salvaged(text: &[u8]) -> Vec<Row> {
    let mut rows = oracle::salvage(text).expect("no shape is too long");
    for row in rows.iter_mut() {
        if row.kind == Kind::Cause as u32 {
            row.end = end_of(row.start, row.end);
        }
    }
    rows
}

/// Measured for one text: the Rust and the proved reader, by turns.
struct Measured {
    bytes: usize,
    rust: Times,
    proved: Times,
}

pub fn run(folders: &[PathBuf], rounds: usize) {
    for shape in shapes::refused(folders) {
        println!("strict reading of {}", shape.name);
        both_sizes(&shape, |text| strict(text, rounds));
    }
    for shape in shapes::damaged_pieces() {
        println!("salvage of {}", shape.name);
        both_sizes(&shape, |text| pieces(text, rounds));
    }
}

fn both_sizes(shape: &Shape, measure: impl Fn(&[u8]) -> Measured) {
    let (small, full) = (measure(&shape.small), measure(&shape.full));
    let times = [
        ("Rust", &small.rust, &full.rust),
        ("proved", &small.proved, &full.proved),
    ];
    growth(small.bytes, full.bytes, &times);
}

/// Strict reading of a text that is refused.
fn strict(text: &[u8], rounds: usize) -> Measured {
    // A benchmark of a wrong answer says nothing.
    let refusal = oracle::read(text).expect_err("every shape here is refused");
    let end = end_of(refusal.start, refusal.end);
    let wanted = Answer::refused(refusal.number, refusal.start.into(), end.into());
    assert_eq!(proved::read(text, &mut []), wanted, "the readers differ");
    let mut measured = Measured::new(text);
    for _ in 0..rounds {
        measured.rust.run(|| the_rust(text));
        measured.proved.run(|| proved::read(text, &mut []));
    }
    println!("  {} bytes, refused at {}", text.len(), refusal.start);
    measured.print();
    measured
}

fn the_rust(text: &[u8]) -> Option<ParseError> {
    let text = std::str::from_utf8(black_box(text)).expect("every shape is UTF-8");
    RawBibliography::parse(text).err()
}

/// Salvage of a text.
fn pieces(text: &[u8], rounds: usize) -> Measured {
    let (mut rows, mut rusts) = (agreed_rows(text), Vec::new());
    let mut measured = Measured::new(text);
    for _ in 0..rounds {
        let rust = || oracle::salvage_into(black_box(text), black_box(&mut rusts));
        measured.rust.run(rust);
        measured.proved.run(|| proved::salvage(text, &mut rows));
    }
    println!("  {} bytes, {} rows", text.len(), rows.len() / 4);
    measured.print();
    measured
}

impl Measured {
    fn new(text: &[u8]) -> Self {
        Self {
            bytes: text.len(),
            rust: Times::new(),
            proved: Times::new(),
        }
    }

    fn print(&self) {
        let Self {
            bytes,
            rust,
            proved,
        } = self;
        println!("    Rust   {}", rust.speed(*bytes));
        let (speed, ratio) = (proved.speed(*bytes), rust.ratio(proved));
        println!("    proved {speed}, ratio {ratio}");
    }
}
