//! The Rust's answer as rows and refusals, as 01's "Rows and their packing" and "Numbers a caller
//! can get" have them, with the places that 02's "Underline the culprit" gives to refusals.

use crate::places;
use crate::raw::{Pair, ParseError, ParseErrorKind, RawBibliography, RawChunk, RawEntry, Token};
use crate::{Span, Spanned};

/// The longest file that is read, in bytes.
pub const LONGEST_FILE: usize = 16_777_215;

/// The kinds of rows: up to 8 those that strict reading gives, then what salvage adds.
#[derive(Debug, Clone, Copy, PartialEq, Eq)]
#[repr(u32)]
pub enum Kind {
    Preamble = 0,
    Entry = 1,
    EntryType = 2,
    Key = 3,
    FieldName = 4,
    Value = 5,
    Literal = 6,
    Name = 7,
    DefinitionName = 8,
    Damage = 9,
    Cause = 10,
}

/// A row. Details are 0, but a cause's is the number of the refusal.
#[derive(Debug, Clone, Copy, PartialEq, Eq)]
pub struct Row {
    pub kind: u32,
    pub detail: u32,
    pub start: u32,
    pub end: u32,
}

impl Row {
    pub(crate) fn new(kind: Kind, span: &Span) -> Self {
        Self {
            kind: kind as u32,
            detail: 0,
            start: small(span.start),
            end: small(span.end),
        }
    }
}

/// One of 01's refusals, with its place.
#[derive(Debug, Clone, Copy, PartialEq, Eq)]
pub struct Refusal {
    pub number: u32,
    pub start: u32,
    pub end: u32,
}

impl Refusal {
    pub(crate) fn new(number: u32, span: Span) -> Self {
        Self {
            number,
            start: small(span.start),
            end: small(span.end),
        }
    }
}

/// A place as a row has it. Every place is at most the length of a file that is read.
fn small(place: usize) -> u32 {
    u32::try_from(place).expect("a place in a file of less than 2^24 bytes")
}

/// Reads a file strictly: its rows in file order, or the refusal.
pub fn read(file: &[u8]) -> Result<Vec<Row>, Refusal> {
    let mut rows = Vec::new();
    read_into(file, &mut rows)?;
    Ok(rows)
}

/// As `read`, into rows whose room is used again. They are empty after a refusal.
pub fn read_into(file: &[u8], rows: &mut Vec<Row>) -> Result<(), Refusal> {
    rows.clear();
    let text = text_of(file)?;
    let bibliography = RawBibliography::parse(text).map_err(|error| refusal(text, error))?;
    lay(text, &bibliography, rows);
    Ok(())
}

/// A file as text, or 01's refusal of one that is too long or not UTF-8.
pub(crate) fn text_of(file: &[u8]) -> Result<&str, Refusal> {
    if file.len() > LONGEST_FILE {
        return Err(Refusal::new(1, 0..0));
    }
    std::str::from_utf8(file).map_err(|error| {
        let place = error.valid_up_to();
        Refusal::new(2, place..place)
    })
}

fn refusal(text: &str, error: ParseError) -> Refusal {
    let number = match &error.kind {
        ParseErrorKind::UnexpectedEof => 3,
        ParseErrorKind::Expected(Token::Identifier) => 4,
        ParseErrorKind::Expected(Token::OpeningBrace) => 5,
        ParseErrorKind::Expected(Token::ClosingBrace) => 6,
        ParseErrorKind::Expected(Token::Comma) => 7,
        ParseErrorKind::Expected(Token::QuotationMark) => 8,
        ParseErrorKind::Expected(Token::Equals) => 9,
        ParseErrorKind::Unexpected(Token::DecimalPoint) => 10,
        other => panic!("strict reading has no such refusal: {other:?}"),
    };
    Refusal::new(number, culprit(text, error.span))
}

/// 02: "the Rust's start, and the end so widened", to "the offending character's whole span". At the
/// end of the text that is read no character stands, and the place stays empty. Salvage hands over a
/// piece as a text of its own.
///
/// The Rust reports only where its scanner stands: in all these refusals its span is empty, so that
/// what is widened here has no end of the Rust's to be lost. One that is not empty stops the run.
fn culprit(text: &str, rusts: Span) -> Span {
    let start = rusts.start;
    assert_eq!(start, rusts.end, "the Rust's span is not empty");
    let rest = text
        .get(start..)
        .expect("the Rust stands between characters");
    let character = rest.chars().next();
    start..start + character.map_or(0, char::len_utf8)
}

/// Puts entries, definitions and preambles, which the Rust keeps apart, in file order.
///
/// The Rust reads one after the other, from left to right: each of the three lists rises, and no
/// two of their members overlap. So file order is the order of their starts.
fn lay(text: &str, bibliography: &RawBibliography, rows: &mut Vec<Row>) {
    let preambles = places::preambles(text, bibliography);
    let mut preambles = preambles.iter().peekable();
    let mut definitions = bibliography.abbreviations.iter().peekable();
    let mut entries = bibliography.entries.iter().peekable();
    loop {
        let preamble = preambles.peek().map_or(usize::MAX, |p| p.start);
        let definition = definitions.peek().map_or(usize::MAX, |d| d.key.span.start);
        let entry = entries.peek().map_or(usize::MAX, |e| e.span.start);
        let first = preamble.min(definition).min(entry);
        if let Some(p) = preambles.next_if(|p| p.start == first) {
            rows.push(Row::new(Kind::Preamble, p));
        } else if let Some(d) = definitions.next_if(|d| d.key.span.start == first) {
            lay_pair(Kind::DefinitionName, d, rows);
        } else if let Some(e) = entries.next() {
            lay_entry(e, rows);
        } else {
            return;
        }
    }
}

fn lay_entry(entry: &Spanned<RawEntry>, rows: &mut Vec<Row>) {
    rows.push(Row::new(Kind::Entry, &entry.span));
    rows.push(Row::new(Kind::EntryType, &entry.v.kind.span));
    rows.push(Row::new(Kind::Key, &entry.v.key.span));
    for field in &entry.v.fields {
        lay_pair(Kind::FieldName, field, rows);
    }
}

fn lay_pair(name: Kind, pair: &Pair, rows: &mut Vec<Row>) {
    rows.push(Row::new(name, &pair.key.span));
    rows.push(Row::new(Kind::Value, &pair.value.span));
    for chunk in &pair.value.v {
        let kind = match chunk.v {
            RawChunk::Normal(_) => Kind::Literal,
            RawChunk::Abbreviation(_) => Kind::Name,
        };
        rows.push(Row::new(kind, &chunk.span));
    }
}
