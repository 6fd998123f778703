//! Compares the proved reader with the Rust, row by row and refusal by refusal; then packing and
//! unpacking with a Rust packer, salvage with 01's cutting around the Rust, the writers of chunks
//! with the Rust's, sentence case among them, and resolving of literals, of fields and of whole files, chunk by chunk, with the
//! Rust's.
//!
//!     cargo run --release -p differential                    some 5,300,000 cases, in a minute at most
//!     cargo run --release -p differential -- --long          some two hundred million
//!     cargo run --release -p differential -- --seed 7        other random cases
//!     cargo run --release -p differential -- --only literals   the groups whose names have this word
//!     cargo run --release -p differential -- FILE FOLDER     these .bib files, folders searched
//!     cargo run --release -p differential -- --damage 20 FOLDER    and 20 damaged copies of each
//!
//! The last line is `N cases, D differ`; the status is 1 if any differ. Before it, the first few
//! differences stand in full. build.rs of `oracle` and of `proved` say where the two readers come
//! from.

mod blocks;
mod culprits;
mod drawn;
mod edges;
mod exhaustive;
mod fields;
mod files;
mod judge;
mod lent;
mod literals;
mod packing;
mod packs;
mod report;
mod resolves;
mod room;
mod salvage;
mod sentences;
mod values;
mod wholes;
mod writes;
mod writing;

use std::path::PathBuf;
use std::process::ExitCode;

use judge::{Judge, SALVAGE};
use values::{Asks, Values};
use wholes::Wholes;
use writing::Texts;

/// What the command line asks for.
struct Wanted {
    long: bool,
    seed: u64,
    damage: usize,
    only: String,
    paths: Vec<PathBuf>,
}

fn main() -> ExitCode {
    let wanted = match wanted() {
        Ok(wanted) => wanted,
        Err(fault) => {
            eprintln!("differential: {fault}");
            return ExitCode::from(2);
        }
    };
    println!(
        "seed {}; composition by {}; case by the compiler, Unicode {}",
        wanted.seed,
        oracle::COMPOSITION,
        unicode()
    );
    let mut judge = Judge::new(&wanted.only);
    if wanted.paths.is_empty() {
        reading(&mut judge, &wanted);
        packing(&mut judge, &wanted);
        salvaging(&mut judge, &wanted);
        writing(&mut judge, &wanted, "writing", &writing::PLAIN);
        writing(&mut judge, &wanted, "sentences", &writing::SENTENCES);
        sentences(&mut judge, wanted.long);
        resolving(&mut judge, &wanted);
        resolving_fields::<Values>(&mut judge, &wanted, "fields");
        resolving_fields::<Wholes>(&mut judge, &wanted, "whole files");
        let Wanted { long, seed, .. } = wanted;
        judge.group("whole files beside single fields", |j| {
            fields::one_by_one(j, seed, long)
        });
    } else {
        files::run(&mut judge, &wanted.paths, wanted.damage, wanted.seed);
    }
    println!("{} cases, {} differ", judge.cases, judge.differ);
    if judge.differ == 0 {
        ExitCode::SUCCESS
    } else {
        ExitCode::FAILURE
    }
}

fn reading(judge: &mut Judge, wanted: &Wanted) {
    let Wanted { long, seed, .. } = *wanted;
    judge.group("all short strings", |j| exhaustive::short(j, long));
    judge.group("all short tails", |j| exhaustive::tails(j, long));
    judge.group("sequences around UTF-8", |j| exhaustive::sequences(j, long));
    judge.group("characters", |j| exhaustive::characters(j, long));
    judge.group("edge lengths", |j| edges::run(j, long));
    judge.group("blocks", |j| blocks::run(j, long));
    judge.group("by grammar", |j| drawn::STRICT.grammar(j, seed, long));
    judge.group("damaged", |j| drawn::STRICT.damaged(j, seed, long));
    judge.group("bytes", |j| drawn::bytes(j, seed, long));
    judge.group("room", |j| drawn::STRICT.rooms(j, seed, long));
    judge.group("culprits", |j| culprits::run(j, &culprits::ALONE, long));
}

fn packing(judge: &mut Judge, wanted: &Wanted) {
    let Wanted { long, seed, .. } = *wanted;
    judge.group("packing, all short sequences", |j| {
        packing::sequences(j, long)
    });
    judge.group("packing, details", packing::details);
    judge.group("packing, places", packing::places);
    judge.group("packing, counts", |j| packing::counts(j, long));
    judge.group("packing, drawn", |j| packing::drawn(j, seed, long));
    judge.group("packing, room", |j| packing::rooms(j, seed, long));
}

fn salvaging(judge: &mut Judge, wanted: &Wanted) {
    let Wanted { long, seed, .. } = *wanted;
    judge.ask(SALVAGE);
    judge.group("salvage, all short files", |j| salvage::short(j, long));
    judge.group("salvage, places", |j| salvage::places(j, long));
    judge.group("salvage, edge lengths", |j| edges::run(j, long));
    judge.group("salvage, blocks", |j| blocks::run(j, long));
    judge.group("salvage, by grammar", |j| {
        drawn::SALVAGE.grammar(j, seed, long)
    });
    judge.group("salvage, damaged", |j| {
        drawn::SALVAGE.damaged(j, seed, long)
    });
    judge.group("salvage, bytes", |j| drawn::bytes(j, seed, long));
    judge.group("salvage, room", |j| drawn::SALVAGE.rooms(j, seed, long));
    judge.group("salvage, culprits", |j| {
        culprits::run(j, &culprits::A_PIECE, long)
    });
}

/// The groups of texts with chunks, by what they are asked about.
fn writing(judge: &mut Judge, wanted: &Wanted, what: &str, texts: &Texts) {
    let Wanted { long, seed, .. } = *wanted;
    let mut group = |name: &str, run: &dyn Fn(&mut Judge)| {
        judge.group(&format!("{what}, {name}"), |j| run(j));
    };
    group("all short chunks", &|j| texts.sequences(j, long));
    group("characters", &|j| texts.characters(j, long));
    group("ranges", &|j| texts.ranges(j));
    group("counts", &|j| texts.counts(j));
    group("sequences around UTF-8", &|j| texts.sequences_of_bytes(j));
    group("lengths", &|j| texts.lengths(j));
    group("blocks", &|j| texts.blocks(j, long));
    group("drawn", &|j| texts.drawn(j, seed, long));
    group("room", &|j| texts.rooms(j, seed, long));
}

/// What only sentence case is asked.
fn sentences(judge: &mut Judge, long: bool) {
    judge.group("sentences, neighbours", |j| sentences::neighbours(j, long));
    judge.group("sentences, pairs of chunks", |j| sentences::pairs(j, long));
    judge.group("sentences, line ends", |j| sentences::line_ends(j, long));
}

fn resolving(judge: &mut Judge, wanted: &Wanted) {
    let Wanted { long, seed, .. } = *wanted;
    judge.group("literals, all short strings", |j| literals::short(j, long));
    judge.group("literals, all short commands", |j| {
        literals::tokens(j, long)
    });
    judge.group("literals, every command", literals::commands);
    judge.group("literals, every accent", literals::accents);
    judge.group("literals, characters", |j| literals::characters(j, long));
    judge.group("literals, drawn", |j| literals::drawn(j, seed, long));
    judge.group("literals, deep", |j| literals::deep(j, seed, long));
    judge.group("literals, blocks", |j| literals::blocks(j, long));
    judge.group("literals, lengths", |j| literals::lengths(j, long));
    judge.group("literals, room", |j| literals::rooms(j, seed, long));
    judge.group("literals, places and scratch", literals::places);
    judge.group("literals, longest files", literals::files);
}

/// The version of Unicode by which the compiler's library raises and lowers letters.
fn unicode() -> String {
    let (major, minor, patch) = char::UNICODE_VERSION;
    format!("{major}.{minor}.{patch}")
}

/// The groups of files with fields, by what asks about them.
fn resolving_fields<A: Asks>(judge: &mut Judge, wanted: &Wanted, what: &str) {
    let Wanted { long, seed, .. } = *wanted;
    let mut group = |name: &str, run: &dyn Fn(&mut Judge)| {
        judge.group(&format!("{what}, {name}"), |j| run(j));
    };
    group("names and months", &fields::names::<A>);
    group("chains", &|j| fields::chains::<A>(j, long));
    group("counts", &|j| fields::counts::<A>(j, long));
    group("long literals", &fields::literals::<A>);
    group("deep literals", &fields::deep::<A>);
    group("many definitions", &|j| {
        fields::definitions::<A>(j, seed, long)
    });
    group("names of one hash", &|j| {
        fields::colliding::<A>(j, seed, long)
    });
    group("drawn", &|j| fields::drawn::<A>(j, seed, long));
    group("room", &|j| fields::rooms::<A>(j, seed, long));
    group("broken", &|j| fields::broken::<A>(j, seed, long));
    group("all short sequences", &|j| fields::sequences::<A>(j, long));
    group("every number", &fields::numbers::<A>);
    group("order of refusals", &fields::order::<A>);
}

fn wanted() -> Result<Wanted, String> {
    let mut wanted = Wanted {
        long: false,
        seed: 1,
        damage: 0,
        only: String::new(),
        paths: Vec::new(),
    };
    let mut words = std::env::args().skip(1);
    while let Some(word) = words.next() {
        match word.as_str() {
            "--quick" => wanted.long = false,
            "--long" => wanted.long = true,
            "--seed" => wanted.seed = number(&word, words.next())?,
            "--damage" => wanted.damage = number(&word, words.next())?,
            "--only" => wanted.only = words.next().ok_or("--only takes a word")?,
            _ if word.starts_with("--") => return Err(format!("no option {word}")),
            _ => wanted.paths.push(word.into()),
        }
    }
    Ok(wanted)
}

fn number<T: std::str::FromStr>(option: &str, word: Option<String>) -> Result<T, String> {
    let number = word.and_then(|word| word.parse().ok());
    number.ok_or_else(|| format!("{option} takes a number"))
}
