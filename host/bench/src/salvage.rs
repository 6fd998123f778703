//! Salvage: on a sound file beside strict reading, on the same file with every tenth piece damaged
//! beside strict reading of the sound one, and on files of many pieces at two sizes.
//!
//! All rows are written into memory that is there and was written before.

use std::path::PathBuf;

use crate::refused;
use crate::shapes::{self, Shape};
use crate::timing::{growth, Times};

/// Measured for one text: strict reading, where the text is sound, and salvage.
struct Measured {
    bytes: usize,
    strict: Times,
    salvage: Times,
}

pub fn run(folders: &[PathBuf], rounds: usize) {
    match shapes::sound(folders) {
        Some(shape) => {
            beside_reading(&shape, &shape, rounds);
            beside_reading(&shapes::every_tenth_damaged(&shape), &shape, rounds);
        }
        None => println!("no sound real file: name a folder that has .bib files"),
    }
    let tiny = shapes::million();
    beside_reading(&tiny, &tiny, rounds);
    for shape in shapes::pieces() {
        println!("salvage of {}", shape.name);
        let (small, full) = (alone(&shape.small, rounds), alone(&shape.full, rounds));
        let times = [("salvage", &small.salvage, &full.salvage)];
        growth(small.bytes, full.bytes, &times);
    }
}

/// Salvage of a shape beside strict reading of a sound one with as many bytes.
fn beside_reading(shape: &Shape, sound: &Shape, rounds: usize) {
    println!("salvage of {}", shape.name);
    let small = both(&shape.small, &sound.small, rounds);
    let full = both(&shape.full, &sound.full, rounds);
    let times = [
        ("strict", &small.strict, &full.strict),
        ("salvage", &small.salvage, &full.salvage),
    ];
    growth(small.bytes, full.bytes, &times);
}

/// Strict reading of a sound text and salvage of one with as many bytes, by turns.
fn both(text: &[u8], sound: &[u8], rounds: usize) -> Measured {
    assert_eq!(text.len(), sound.len());
    let (mut rows, mut sound_rows) = (agreed_rows(text), agreed_rows(sound));
    let mut measured = Measured::new(text);
    for _ in 0..rounds {
        measured.strict.run(|| proved::read(sound, &mut sound_rows));
        measured.salvage.run(|| proved::salvage(text, &mut rows));
    }
    let Measured {
        bytes,
        strict,
        salvage,
    } = &measured;
    println!("  {bytes} bytes, {} rows", rows.len() / 4);
    println!("    strict   {}", strict.speed(*bytes));
    println!(
        "    salvage  {}, {} of strict reading's time",
        salvage.speed(*bytes),
        salvage.ratio(strict)
    );
    measured
}

fn alone(text: &[u8], rounds: usize) -> Measured {
    let mut rows = agreed_rows(text);
    let mut measured = Measured::new(text);
    for _ in 0..rounds {
        measured.salvage.run(|| proved::salvage(text, &mut rows));
    }
    let Measured { bytes, salvage, .. } = &measured;
    println!("  {bytes} bytes, {} rows", rows.len() / 4);
    println!("    salvage  {}", salvage.speed(*bytes));
    measured
}

impl Measured {
    fn new(text: &[u8]) -> Self {
        Self {
            bytes: text.len(),
            strict: Times::new(),
            salvage: Times::new(),
        }
    }
}

/// The numbers of the rows, on which both salvages agree. A benchmark of a wrong answer says
/// nothing.
pub fn agreed_rows(text: &[u8]) -> Vec<u32> {
    let rows = refused::salvaged(text);
    let mut room = vec![1; 4 * rows.len()];
    let answer = proved::salvage(text, &mut room);
    assert_eq!((answer.number, answer.count), (0, rows.len() as u64));
    let numbers = |row: &oracle::Row| [row.kind, row.detail, row.start, row.end];
    let same = room.iter().copied().eq(rows.iter().flat_map(numbers));
    assert!(same, "the salvages differ");
    room
}
