//! Literals resolved by the Rust, as `parse_field` resolves a field that has one element.
//!
//! The Rust has no rows and no limits. What they are refused with is written from 01's "From file to
//! field", "Numbers a caller can get" and "Rows and their packing": 1, 2, 16 and 17. What is not
//! here is 14: the Rust opens as many arguments inside each other as there are.

use std::collections::HashMap;

use crate::chunk::{Chunk, Chunks};
use crate::raw::{ParseError, ParseErrorKind, RawChunk, Token};
use crate::resolve::parse_field;
use crate::rows::text_of;
use crate::{Refusal, Spanned};

/// The longest literal that is resolved, and the least scratch, in bytes.
pub const LONGEST_LITERAL: usize = 16_384;
pub const LEAST_SCRATCH: usize = 32_768;

/// Names of fields by which `is_verbatim_field` tells: one that is verbatim, and one that is not.
const VERBATIM_FIELD: &str = "file";
const OTHER_FIELD: &str = "title";

/// What a literal or a field is resolved into: chunk rows, the text that they are rows of, and how
/// many names were resolved. A literal has none.
#[derive(Debug, Clone, Default, PartialEq, Eq)]
pub struct Resolved {
    pub rows: Vec<u32>,
    pub text: Vec<u8>,
    pub names: u64,
}

/// The name of a field that is verbatim, or of one that is not.
pub(crate) fn field_name(is_verbatim: bool) -> &'static str {
    if is_verbatim {
        VERBATIM_FIELD
    } else {
        OTHER_FIELD
    }
}

/// Resolves the literal that stands in a file from a byte up to another, with so much scratch.
pub fn resolve_literal(
    file: &[u8],
    (from, to): (usize, usize),
    is_verbatim: bool,
    scratch: usize,
) -> Result<Resolved, Refusal> {
    // Just the places that are reversed, outside the file or across a character `get` gives no text
    // for.
    let literal = text_of(file)?.get(from..to).ok_or(Refusal::new(17, 0..0))?;
    if scratch < LEAST_SCRATCH {
        return Err(Refusal::new(16, 0..0));
    }
    if literal.len() > LONGEST_LITERAL {
        return Err(Refusal::new(1, from..to));
    }
    chunks_of(literal, from, is_verbatim).map(|chunks| laid(&chunks))
}

/// The Rust's chunks of a literal that stands at this byte of its file.
pub fn chunks_of(literal: &str, place: usize, is_verbatim: bool) -> Result<Chunks, Refusal> {
    let span = place..place + literal.len();
    let field = vec![Spanned::new(RawChunk::Normal(literal), span)];
    parse_field(field_name(is_verbatim), &field, &HashMap::new()).map_err(refusal)
}

pub(crate) fn refusal(error: ParseError) -> Refusal {
    let number = match &error.kind {
        ParseErrorKind::UnexpectedEof => 3,
        ParseErrorKind::Unexpected(Token::ClosingBrace) => 11,
        ParseErrorKind::UnknownAbbreviation(_) => 12,
        other => panic!("resolving has no such refusal: {other:?}"),
    };
    Refusal::new(number, error.span)
}

/// Chunks as rows, with their texts one behind the other.
pub(crate) fn laid(chunks: &[Spanned<Chunk>]) -> Resolved {
    let mut resolved = Resolved::default();
    for chunk in chunks {
        let (kind, text) = match &chunk.v {
            Chunk::Normal(text) => (0, text),
            Chunk::Verbatim(text) => (1, text),
            Chunk::Math(text) => (2, text),
        };
        let from = resolved.text.len();
        resolved.text.extend_from_slice(text.as_bytes());
        let places = [from, resolved.text.len(), chunk.span.start, chunk.span.end];
        resolved.rows.push(kind);
        resolved.rows.extend(places.map(|place| place as u32));
    }
    resolved
}
