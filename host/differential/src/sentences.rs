//! Sentence case: every character, first and not; characters beside each other that no condition may tell
//! apart; every pair of chunks, empty ones too; line ends at every place; and the values of real files. What
//! every writer is asked besides is in `writing`.

use std::ops::RangeInclusive;

use cases::chunks::WHITE_SPACE;
use cases::fields::Months;
use oracle::{Fields, Given, LEAST_SCRATCH};

use crate::exhaustive;
use crate::judge::Judge;
use crate::writes::{Asked, Writes};
use crate::writing::KINDS;

/// Texts for pairs of chunks: nothing, letters that change and that do not, one or more characters, and
/// line ends.
const TEXTS: [&str; 9] = ["", "a", "B", "ß", "İ", "Σ", "\n", "\r", "\r\n"];

/// Characters whose case is another at the end of a word, or in some language beside some mark, by the part of
/// SpecialCasing that has conditions; the marks; and what stands in and between words.
const CONDITIONAL: [&str; 12] = [
    "Σ", "σ", "a", "B", "I", "i", "J", "İ", "\u{307}", "\u{300}", "'", " ",
];

/// What is put at every place of some chunks.
const ENDS: [&str; 8] = [
    "\n",
    "\r",
    "\r\n",
    "\n\r",
    "\n\n",
    " \n",
    "\n ",
    "\u{2028}\r",
];

/// The chunks that it is put into.
const PARTS: [&str; 3] = ["aB", "C ", ""];

/// Characters that have got another case since Unicode 15.0, in 16.0 or in 17.0.
#[rustfmt::skip]
const LATER: [RangeInclusive<char>; 10] = [
    '\u{19B}'..='\u{19B}', '\u{264}'..='\u{264}', '\u{1C89}'..='\u{1C8A}', '\u{A7CB}'..='\u{A7CF}',
    '\u{A7D2}'..='\u{A7D5}', '\u{A7DA}'..='\u{A7DC}', '\u{10D50}'..='\u{10D65}', '\u{10D70}'..='\u{10D85}',
    '\u{16EA0}'..='\u{16EB8}', '\u{16EBB}'..='\u{16ED3}',
];

/// Whether the tables of the compiler may not know yet the cases of a character: those that are proved are of
/// Unicode 17.0.
fn is_later(c: char) -> bool {
    char::UNICODE_VERSION.0 < 17 && LATER.iter().any(|later| later.contains(&c))
}

/// The characters that become others where they are raised or lowered.
pub fn cased() -> impl Iterator<Item = char> {
    let changes = |c: &char| !c.to_uppercase().eq([*c]) || !c.to_lowercase().eq([*c]);
    let all = ('\0'..=char::MAX).filter(changes);
    all.filter(|c| !is_later(*c))
}

/// Every character as the first and as another one, each with a line end behind it, which shows whether it is
/// white space: alone in Normal text; and, of all in a long run and of some and those with another case in a
/// quick one, behind chunks of every kind, of which Verbatim ones end with it.
pub fn characters(judge: &mut Judge, long: bool) {
    let mut writes = Writes::new(Asked::Sentences);
    let all = ('\0'..=char::MAX).filter(|c| !is_later(*c));
    for c in all {
        let text = format!("{c}\n{c}\n");
        let row = [0, 0, text.len() as u32, 0, 0];
        match long {
            true => writes.check(judge, text.as_bytes(), &row),
            false => writes.check_once(judge, text.as_bytes(), &row),
        }
    }
    let some = exhaustive::some_characters(long).filter(|c| !is_later(*c));
    let rest = cased().filter(|_| !long);
    for c in some.chain(rest) {
        behind(judge, &mut writes, c);
    }
}

/// A character in a chunk behind one of every kind, which is the character itself or empty.
fn behind(judge: &mut Judge, writes: &mut Writes, c: char) {
    let text = format!("{c}\n{c}\n");
    let (half, all) = (text.len() as u32 / 2, text.len() as u32);
    for kind in KINDS {
        let rows = [kind, 0, half - 1, 0, 0, 0, half - 1, all, 0, 0];
        writes.check(judge, text.as_bytes(), &rows);
        let rows = [kind, 0, 0, 0, 0, 0, half, all, 0, 0];
        writes.check_once(judge, text.as_bytes(), &rows);
    }
}

/// Every string of at most five (quick: four) such characters: no condition counts.
pub fn neighbours(judge: &mut Judge, long: bool) {
    let mut writes = Writes::new(Asked::Sentences);
    let symbols = CONDITIONAL.map(str::as_bytes);
    let left = if long { 5 } else { 4 };
    exhaustive::extend(&mut Vec::new(), &symbols, left, &mut |text| {
        writes.check(judge, text, &[0, 0, text.len() as u32, 0, 0]);
    });
}

/// Every pair of chunks of these kinds and texts, and of texts that end with each white space; in a long run
/// also of texts that are white space alone, or white space and a line end; with a third behind them.
pub fn pairs(judge: &mut Judge, long: bool) {
    let mut writes = Writes::new(Asked::Sentences);
    let mut texts: Vec<String> = TEXTS.map(String::from).to_vec();
    texts.extend(WHITE_SPACE.map(|white| format!("X{white}")));
    if long {
        texts.extend(WHITE_SPACE.map(String::from));
        texts.extend(WHITE_SPACE.map(|white| format!("{white}\n")));
    }
    for first in KINDS {
        for second in KINDS {
            for one in &texts {
                for other in &texts {
                    check(
                        judge,
                        &mut writes,
                        &[(first, one), (second, other), (0, "\nC")],
                    );
                }
            }
        }
    }
}

/// Chunks of all kinds, with line ends at every two places of them, which may be one.
pub fn line_ends(judge: &mut Judge, long: bool) {
    let mut writes = Writes::new(Asked::Sentences);
    let places = |part: usize| (0..=PARTS[part].len()).map(move |at| (part, at));
    let places: Vec<(usize, usize)> = (0..PARTS.len()).flat_map(places).collect();
    let ends = if long { &ENDS[..] } else { &ENDS[..3] };
    for (n, place) in places.iter().enumerate() {
        for other in &places[n..] {
            for one in ends {
                for two in ends {
                    let mut parts = PARTS.map(String::from);
                    // The later first, so that the other place is still where it was.
                    parts[other.0].insert_str(other.1, two);
                    parts[place.0].insert_str(place.1, one);
                    of_all_kinds(judge, &mut writes, &parts);
                }
            }
        }
    }
}

/// Chunks of these texts, of all kinds.
fn of_all_kinds(judge: &mut Judge, writes: &mut Writes, parts: &[String; 3]) {
    for first in KINDS {
        for second in KINDS {
            for third in KINDS {
                let kinds = [first, second, third].into_iter();
                let chunks: Vec<_> = kinds.zip(parts.iter().map(String::as_str)).collect();
                check(judge, writes, &chunks);
            }
        }
    }
}

/// Chunks by kind and text.
fn check(judge: &mut Judge, writes: &mut Writes, chunks: &[(u32, &str)]) {
    let (mut text, mut rows) = (String::new(), Vec::new());
    for (kind, part) in chunks {
        let from = text.len() as u32;
        text += part;
        rows.extend([*kind, from, text.len() as u32, 0, 0]);
    }
    writes.check(judge, text.as_bytes(), &rows);
}

/// All values of a file that the Rust resolves, of fields and of definitions: titles, and all else.
pub fn of_file(judge: &mut Judge, writes: &mut Writes, file: &[u8]) {
    let Ok(rows) = oracle::salvage(file) else {
        return;
    };
    let values = rows
        .iter()
        .filter(|row| row.kind == oracle::Kind::Value as u32);
    let flags = vec![0; values.count()];
    let numbers = |row: &oracle::Row| [row.kind, row.detail, row.start, row.end];
    let rows: Vec<u32> = rows.iter().flat_map(numbers).collect();
    let months = Months::english();
    let fields = Fields::new(Given {
        file,
        rows: &rows,
        months: &months.numbers,
        words: &months.words,
    });
    let resolved = fields.resolve_all(&flags, LEAST_SCRATCH);
    for value in resolved.into_iter().flatten().flatten() {
        writes.check(judge, &value.text, &value.rows);
    }
}
