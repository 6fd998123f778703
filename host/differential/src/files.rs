//! Real files, from the command line.

use std::path::PathBuf;

use cases::{damage, Random};

use crate::drawn::spoil;
use crate::fields;
use crate::judge::{Judge, SALVAGE};
use crate::literals;
use crate::packs::Packs;
use crate::resolves::Resolves;
use crate::sentences;
use crate::values::{Asks, Values};
use crate::wholes::Wholes;
use crate::writes::{Asked, Writes};

/// How a copy of a file is spoilt, with another file at hand.
type Spoil = fn(&mut Random, &mut Vec<u8>, &[u8]);

/// Compares each file, and copies of it that are damaged; packs the rows of each; then salvages
/// each, and damaged copies; and resolves the literals of each, the fields, and all fields at once, and
/// formats what they are resolved to in sentence case.
pub fn run(judge: &mut Judge, paths: &[PathBuf], copies: usize, seed: u64) {
    let texts = cases::files(paths);
    let bytes: usize = texts.iter().map(Vec::len).sum();
    println!("{} files, {bytes} bytes", texts.len());
    let copies = if texts.is_empty() { 0 } else { copies };
    judge.group("files", |j| texts.iter().for_each(|text| j.check(text)));
    if copies > 0 {
        let random = Random::new(seed, 5);
        judge.group("damaged copies", |j| {
            spoilt(j, &texts, copies, random, damaged)
        });
    }
    judge.group("packing of the files' rows", |j| packed(j, &texts));
    judge.ask(SALVAGE);
    judge.group("salvage of files", |j| {
        texts.iter().for_each(|text| j.check(text))
    });
    if copies > 0 {
        let random = Random::new(seed, 11);
        judge.group("salvage of damaged copies", |j| {
            spoilt(j, &texts, copies, random, spoil)
        });
    }
    resolved(judge, &texts);
}

/// The groups of what is resolved.
fn resolved(judge: &mut Judge, texts: &[Vec<u8>]) {
    judge.group("literals of files", |j| {
        let mut resolves = Resolves::new();
        let all = texts.iter();
        all.for_each(|text| literals::of_file(j, &mut resolves, text))
    });
    judge.group("fields of files", |j| {
        let mut values = Values::new();
        let all = texts.iter();
        all.for_each(|text| fields::of_file(j, &mut values, text))
    });
    judge.group("sentences of files", |j| {
        let mut writes = Writes::new(Asked::Sentences);
        let all = texts.iter();
        all.for_each(|text| sentences::of_file(j, &mut writes, text))
    });
    judge.group("a program over the Rust's names", |j| moved(j, texts));
    judge.group("whole files", |j| {
        let mut wholes = Wholes::new();
        let all = texts.iter();
        all.for_each(|text| fields::of_file(j, &mut wholes, text))
    });
}

/// A program over the names of the Rust's modules: over the original, and over the proved library.
fn moved(judge: &mut Judge, texts: &[Vec<u8>]) {
    let sources = texts
        .iter()
        .filter_map(|text| std::str::from_utf8(text).ok());
    for [original, ours] in sources.filter_map(moved::both) {
        if judge.count(original.is_ok(), original == ours) {
            println!(
                "case {} differs: the program says, over the original and over ours:",
                judge.cases
            );
            let (Ok(original) | Err(original), Ok(ours) | Err(ours)) = (original, ours);
            let lines = original.lines().zip(ours.lines());
            for (one, other) in lines.filter(|(one, other)| one != other).take(5) {
                println!("  {one}\n  {other}");
            }
        }
    }
}

fn spoilt(judge: &mut Judge, texts: &[Vec<u8>], copies: usize, mut random: Random, spoil: Spoil) {
    let mut copy = Vec::new();
    for text in texts {
        let other = &texts[random.below(texts.len())];
        for _ in 0..copies {
            copy.clone_from(text);
            spoil(&mut random, &mut copy, other);
            judge.check(&copy);
        }
    }
}

fn damaged(random: &mut Random, file: &mut Vec<u8>, other: &[u8]) {
    for _ in 0..=random.below(3) {
        damage(random, file, other);
    }
}

/// Packs and unpacks the rows of each accepted file, and those that each file's salvage gives.
fn packed(judge: &mut Judge, texts: &[Vec<u8>]) {
    let mut packs = Packs::new();
    for text in texts {
        for rows in [oracle::read(text), oracle::salvage(text)]
            .into_iter()
            .flatten()
        {
            let numbers = |row: &oracle::Row| [row.kind, row.detail, row.start, row.end];
            let numbers: Vec<u32> = rows.iter().flat_map(numbers).collect();
            packs.rows(judge, &numbers);
        }
    }
}
