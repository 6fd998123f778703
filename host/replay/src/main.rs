//! A fixed list of the Rust's answers, for `crates/replay`, which replays them without any Rust.
//!
//!     cargo run --release -p replay -- emit > LIST     writes the list
//!     cargo run --release -p replay -- check < LIST    asks the Rust again, case by case
//!     cargo run --release -p replay -- rows < FILE     prints a file's rows as 01's program does
//!
//! A list is cases one after the other up to its end, numbers with their high byte first:
//!
//!     1 byte     0 for a file, 1 for a literal of a file
//!     2 bytes    the file's length, below 200
//!                the file
//!     a literal  2 bytes where it starts in the file, 2 bytes where it ends, and 1 byte, which is 1
//!                where its field is verbatim, else 0
//!     1 byte     0 where it is accepted, else 01's refusal number
//!     refused    2 bytes start, 2 bytes end
//!     accepted   2 bytes how many numbers the rows have, 2 bytes the length of their text, the text,
//!                and 2 bytes for each of the numbers: of a file four to a row, and no text; of a
//!                literal the five of a chunk row
//!
//! How the files are chosen, with no choice left to the machine or the day (`files.rs`): 01's table
//! and a file for each refusal; refusals over no character and over one of two, three and four bytes;
//! each tail of at most one character behind each head of `cases::symbols`, and one in four of those
//! of two; each ASCII character and each edge of a class in the places that show its class; sequences
//! around RFC 3629; each string of at most five of "1", "." and "}" as a value; parts repeated at
//! lengths around 2^4 and 2^7; and files by grammar, damaged ones and bytes without a grammar, drawn
//! by seed 3. No file stands in it twice.
//!
//! How the literals are chosen (`literals.rs`): every command bare, with an argument and with a
//! letter more; all that may stand behind a name, behind three; every accent with everything that it
//! may be given; every pair of commands, braces and letters; literals by grammar, whole and broken,
//! drawn by seed 3; and literals in the middle of files, with places that are none and files that
//! are not UTF-8. What 01 adds to the Rust, 2 and 17, is written from 01, and what 02 adds, the ends
//! of a file's refusals, from 02 (`oracle`).

mod case;
mod files;
mod literals;
mod rows;

use std::io::{self, Read, Write};
use std::process::ExitCode;

use case::{Case, List};

fn main() -> ExitCode {
    let word = std::env::args().nth(1).unwrap_or_default();
    let done = match word.as_str() {
        "emit" => emit(),
        "check" => check(),
        "rows" => io::stdout().write_all(rows::printed(&input()).as_bytes()),
        _ => Err(io::Error::other("say emit, check or rows")),
    };
    match done {
        Ok(()) => ExitCode::SUCCESS,
        Err(fault) => {
            eprintln!("replay: {fault}");
            ExitCode::FAILURE
        }
    }
}

fn input() -> Vec<u8> {
    let mut bytes = Vec::new();
    let read = io::stdin().lock().read_to_end(&mut bytes);
    read.expect("standard input cannot be read");
    bytes
}

fn emit() -> io::Result<()> {
    let mut list = List::default();
    files::add_to(&mut list);
    literals::add_to(&mut list);
    let mut numbers = [0; 18];
    list.numbers.iter().for_each(|&number| numbers[number] += 1);
    eprintln!("{} cases, {} bytes", list.numbers.len(), list.bytes.len());
    for (number, count) in numbers.iter().enumerate().filter(|n| *n.1 > 0) {
        eprintln!("number {number}: {count}");
    }
    io::stdout().write_all(&list.bytes)
}

/// Reads a list as the replaying program will, and compares each case with the same case written
/// anew.
fn check() -> io::Result<()> {
    let list = input();
    let (mut at, mut cases, mut differ) = (0, 0, 0);
    while at < list.len() {
        let cut = || io::Error::other(format!("the list is cut off in case {cases}"));
        let (case, end) = Case::read(&list, at).ok_or_else(cut)?;
        let mut same = Vec::new();
        case.put(&mut same);
        differ += usize::from(list[at..end] != same);
        at = end;
        cases += 1;
    }
    println!("{cases} cases, {differ} differ");
    if differ == 0 {
        Ok(())
    } else {
        Err(io::Error::other("the list is not what the Rust says"))
    }
}
