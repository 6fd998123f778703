//! Prints a difference in full.

use oracle::{Row, CHUNK_NUMBERS};
use proved::{Answer, File, Filed, Resolved};

use crate::lent::Rooms;
use crate::resolves::Asked;
use crate::room::{Lent, Room};
use crate::values;
use crate::wholes::Lengths;

/// Longer files and lists are cut.
const MOST_BYTES: usize = 2_000;
const MOST_ROWS: usize = 40;

/// What a case of packing or unpacking should give, and what it gives.
pub struct Given<'a, T> {
    /// What the answers count.
    pub unit: &'a str,
    pub expected: Answer,
    pub written: &'a [T],
    pub answer: Answer,
}

/// The case and what both answer.
pub fn difference(
    case: u64,
    file: &[u8],
    room: usize,
    expected: Answer,
    rows: &[Row],
    answer: Answer,
) {
    let shown = &file[..file.len().min(MOST_BYTES)];
    println!(
        "case {case} differs: {} bytes, room for {room} numbers",
        file.len()
    );
    println!("  file  b\"{}\"", shown.escape_ascii());
    println!("  Rust  {}", said(expected, "rows"));
    if expected.number == 0 {
        for row in rows.iter().take(MOST_ROWS) {
            println!(
                "        {} {} {} {}",
                row.kind, row.detail, row.start, row.end
            );
        }
    }
    println!("  proved {}", said(answer, "rows"));
}

/// The case of packing or unpacking and what both answer.
pub fn packing<T: Lent, U: Lent>(case: u64, name: &str, room: usize, input: &[T], given: Given<U>) {
    let cut = &input[..input.len().min(T::ROW * MOST_ROWS)];
    println!(
        "case {case} differs: {name} of {}, room for {room}",
        input.len()
    );
    println!("  input {}", T::list(cut));
    println!("  Rust  {}", said(given.expected, given.unit));
    if given.expected.number == 0 {
        let cut = &given.written[..given.written.len().min(U::ROW * MOST_ROWS)];
        println!("        {}", U::list(cut));
    }
    println!("  proved {}", said(given.answer, given.unit));
}

/// The literal that a case was of.
pub fn literal(case: u64, file: &[u8], asked: Asked, rooms: Rooms) {
    let Asked {
        span: (from, to),
        verbatim,
        scratch,
    } = asked;
    println!(
        "case {case} differs: the literal {from}..{to} of a file, verbatim {verbatim}, scratch \
         {scratch}, room for {} numbers and {} bytes",
        rooms.0, rooms.1
    );
    let shown = file.get(from..to).unwrap_or(file);
    let shown = &shown[..shown.len().min(MOST_BYTES)];
    println!("  literal b\"{}\"", shown.escape_ascii());
}

/// The field that a case was of.
pub fn field(case: u64, file: &File, asked: values::Asked, rooms: Rooms) {
    println!(
        "case {case} differs: a field, {asked:?}, room for {} numbers and {} bytes",
        rooms.0, rooms.1
    );
    input(file);
}

/// The file that a case was of, and what both answer.
pub fn whole(
    case: u64,
    file: &File,
    flags: &[u8],
    lengths: Lengths,
    (wanted, answers): (Filed, &[u32]),
    answer: Filed,
) {
    println!("case {case} differs: a whole file, {lengths:?}");
    input(file);
    println!("  flags  {:?}", &flags[..flags.len().min(MOST_ROWS)]);
    println!("  Rust   {wanted:?}");
    for row in answers.chunks(proved::ANSWER_NUMBERS).take(MOST_ROWS) {
        println!("        {}", u32::list(row));
    }
    println!("  proved {answer:?}");
}

/// What a call that resolves fields was lent to be read.
fn input(file: &File) {
    let shown = &file.bytes[..file.bytes.len().min(MOST_BYTES)];
    println!("  file   b\"{}\"", shown.escape_ascii());
    for row in file.rows.chunks(4).take(MOST_ROWS) {
        println!("        {}", u32::list(row));
    }
    let shown = &file.words[..file.words.len().min(MOST_BYTES)];
    println!(
        "  months {} of b\"{}\"",
        u32::list(file.months),
        shown.escape_ascii()
    );
}

/// What both answer: what is wanted, with its rows and text, and what is given.
pub fn resolved((wanted, rows, text): (Resolved, &[u32], &[u8]), answer: Resolved) {
    println!("  Rust   {wanted:?}");
    for row in rows.chunks(CHUNK_NUMBERS).take(MOST_ROWS) {
        println!("        {}", u32::list(row));
    }
    println!(
        "        b\"{}\"",
        text[..text.len().min(MOST_BYTES)].escape_ascii()
    );
    println!("  proved {answer:?}");
}

/// Whether memory holds zeros that must.
pub fn zeroed<T: Lent>(name: &str, held: &Room<T>, length: usize) {
    let not = if held.is_zeroed(length) { "" } else { "not " };
    println!("        {name} {not}zeroed");
}

/// What the proved function changed in the room: all rows that are not as they were, and whether
/// anything lies outside what is to be written.
pub fn touched<T: Lent>(held: &Room<T>, room: usize, written: usize) {
    let changed: Vec<i64> = held.changed(room).collect();
    for (row, numbers) in held.front(room).chunks(T::ROW).take(MOST_ROWS).enumerate() {
        let place = (T::ROW * row) as i64;
        let numbers_end = place + numbers.len() as i64;
        if changed.iter().any(|i| (place..numbers_end).contains(i)) {
            println!("        {}", T::list(numbers));
        }
    }
    let outside = |i: &&i64| **i < 0 || **i >= written as i64;
    let outside = changed.iter().filter(outside).take(MOST_ROWS);
    let outside: Vec<String> = outside.map(i64::to_string).collect();
    if !outside.is_empty() {
        println!(
            "        changed outside the answer, at {}",
            outside.join(" ")
        );
    }
}

/// An answer, with the name of what it counts.
fn said(answer: Answer, unit: &str) -> String {
    let Answer {
        number,
        count,
        start,
        end,
    } = answer;
    match number {
        0 if start == 0 && end == 0 => format!("{count} {unit}"),
        _ if number != 0 && count == 0 => format!("refused {number} {start} {end}"),
        _ => format!("number {number}, count {count}, start {start}, end {end}"),
    }
}
