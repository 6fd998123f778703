//! A bibliography as it is read, with names not resolved.

use std::fmt;

use crate::{lent, Span, Spanned};

/// What a field or a definition has: literals and names.
pub type Field<'s> = Vec<Spanned<RawChunk<'s>>>;

/// A file as strict reading takes it apart.
#[derive(Debug, Clone)]
pub struct RawBibliography<'s> {
    /// The preambles with their quotes, `#` between them.
    pub preamble: String,
    pub entries: Vec<Spanned<RawEntry<'s>>>,
    /// The definitions.
    pub abbreviations: Vec<Pair<'s>>,
}

/// An entry: its key, its type and its fields.
#[derive(Debug, Clone)]
pub struct RawEntry<'s> {
    pub key: Spanned<&'s str>,
    pub kind: Spanned<&'s str>,
    pub fields: Vec<Pair<'s>>,
}

/// An element of a value: a literal, or a name.
#[derive(Debug, Clone, PartialEq)]
pub enum RawChunk<'s> {
    Normal(&'s str),
    Abbreviation(&'s str),
}

/// A field or a definition: its name and its value.
#[derive(Debug, Clone)]
pub struct Pair<'s> {
    pub key: Spanned<&'s str>,
    pub value: Spanned<Field<'s>>,
}

impl<'s> Pair<'s> {
    pub fn new(key: Spanned<&'s str>, value: Spanned<Field<'s>>) -> Self {
        Self { key, value }
    }
}

/// Why a source is refused, and where.
#[derive(Debug, Clone, PartialEq)]
pub struct ParseError {
    /// Unlike the original's, the span of an error of reading is the whole character that is wrong, and
    /// empty only at the end of the source; the original's begins there and is always empty. Errors of
    /// resolving have the original's spans.
    pub span: Span,
    pub kind: ParseErrorKind,
}

/// Why: the kinds that reading and resolving have.
#[derive(Debug, Clone, PartialEq)]
#[non_exhaustive]
pub enum ParseErrorKind {
    UnexpectedEof,
    Unexpected(Token),
    Expected(Token),
    /// A name without a definition, which is no month word either.
    UnknownAbbreviation(String),
    MalformedCommand,
    DuplicateKey(String),
    CircularReference(String),
    /// Added: a name that is used in its own definition.
    CyclicAbbreviation(String),
    /// Added: a source of more than 16,777,215 bytes, or a literal of more than 16,384.
    TooLong,
    /// Added: more than 32 names inside each other, or more than 64 arguments of commands.
    TooDeep,
    /// Added: more than 4,096 names in one field.
    TooManyNames,
}

/// What was expected, or not.
#[derive(Debug, Copy, Clone, PartialEq)]
pub enum Token {
    Identifier,
    OpeningBrace,
    ClosingBrace,
    Comma,
    QuotationMark,
    Equals,
    DecimalPoint,
}

impl fmt::Display for ParseError {
    fn fmt(&self, f: &mut fmt::Formatter) -> fmt::Result {
        write!(f, "{} at bytes {:?}", self.kind, self.span)
    }
}

impl std::error::Error for ParseError {}

impl fmt::Display for ParseErrorKind {
    fn fmt(&self, f: &mut fmt::Formatter) -> fmt::Result {
        match self {
            Self::UnexpectedEof => f.write_str("a value is missing or the text ends too early"),
            Self::Unexpected(token) => write!(f, "{token} that must not be here"),
            Self::Expected(token) => write!(f, "{token} is missing"),
            Self::UnknownAbbreviation(name) => write!(f, "no definition of the name {name:?}"),
            Self::MalformedCommand => f.write_str("a command that is not well-formed"),
            Self::DuplicateKey(key) => write!(f, "a second entry with the key {key:?}"),
            Self::CircularReference(key) => write!(f, "a reference of {key:?} to itself"),
            Self::CyclicAbbreviation(name) => write!(f, "{name:?} is used in its own definition"),
            Self::TooLong => f.write_str("more bytes than are read"),
            Self::TooDeep => f.write_str("too many names or arguments inside each other"),
            Self::TooManyNames => f.write_str("more than 4,096 names in one field"),
        }
    }
}

impl fmt::Display for Token {
    fn fmt(&self, f: &mut fmt::Formatter) -> fmt::Result {
        f.write_str(match self {
            Self::Identifier => "an identifier",
            Self::OpeningBrace => "an opening brace",
            Self::ClosingBrace => "a closing brace",
            Self::Comma => "a comma",
            Self::QuotationMark => "a quotation mark",
            Self::Equals => "an equals sign",
            Self::DecimalPoint => "a decimal point",
        })
    }
}

/// The kinds of rows by which a bibliography is put together; an entry's own is none of them.
const PREAMBLE: u32 = 0;
const FIELD_NAME: u32 = 4;
const LITERAL: u32 = 6;
const NAME: u32 = 7;
const DEFINITION_NAME: u32 = 8;

/// What stands between preambles.
const BETWEEN: &str = " # ";

impl<'s> RawBibliography<'s> {
    /// Reads a source strictly.
    pub fn parse(src: &'s str) -> Result<Self, ParseError> {
        let numbers = lent::read(src.as_bytes()).map_err(|refusal| refusal.of_source())?;
        let mut rows = Rows {
            src,
            numbers: &numbers,
        };
        let mut raw = Self {
            preamble: String::new(),
            entries: Vec::new(),
            abbreviations: Vec::new(),
        };
        while let Some((kind, part)) = rows.next() {
            match kind {
                PREAMBLE => {
                    let between = if raw.preamble.is_empty() { "" } else { BETWEEN };
                    raw.preamble += between;
                    raw.preamble += part.v;
                }
                DEFINITION_NAME => raw.abbreviations.push(rows.pair(part)),
                _ => {
                    let entry = rows.entry();
                    raw.entries.push(part.map(|_| entry));
                }
            }
        }
        Ok(raw)
    }
}

/// The rows of a source that are left. Strict reading gives them in the order that 01 has: what is
/// taken next is there.
struct Rows<'s, 'r> {
    src: &'s str,
    numbers: &'r [u32],
}

impl<'s> Rows<'s, '_> {
    /// The kind of the next row, and what it is of.
    fn next(&mut self) -> Option<(u32, Spanned<&'s str>)> {
        let (row, rest) = self.numbers.split_first_chunk::<{ lent::ROW_NUMBERS }>()?;
        self.numbers = rest;
        let span = row[2] as usize..row[3] as usize;
        Some((row[0], Spanned::new(&self.src[span.clone()], span)))
    }

    fn part(&mut self) -> Spanned<&'s str> {
        let (_, part) = self.next().expect("rows are a sequence");
        part
    }

    /// The next row, if it is of this kind.
    fn next_of(&mut self, kinds: &[u32]) -> Option<(u32, Spanned<&'s str>)> {
        let kind = self.numbers.first()?;
        match kinds.contains(kind) {
            true => self.next(),
            false => None,
        }
    }

    fn entry(&mut self) -> RawEntry<'s> {
        let (kind, key) = (self.part(), self.part());
        let mut fields = Vec::new();
        while let Some((_, name)) = self.next_of(&[FIELD_NAME]) {
            fields.push(self.pair(name));
        }
        RawEntry { key, kind, fields }
    }

    /// What has this name: its value, and the value's elements.
    fn pair(&mut self, name: Spanned<&'s str>) -> Pair<'s> {
        let value = self.part();
        let mut field = Vec::new();
        while let Some((kind, part)) = self.next_of(&[LITERAL, NAME]) {
            let element = match kind {
                LITERAL => RawChunk::Normal,
                _ => RawChunk::Abbreviation,
            };
            field.push(part.map(element));
        }
        Pair::new(name, value.map(|_| field))
    }
}
