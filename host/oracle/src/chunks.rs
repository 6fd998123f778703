//! Rows of chunks as the Rust's chunks. The Rust has neither rows nor their refusals: those are
//! written from 01's "Rows and their packing" and "Numbers a caller can get".

use crate::chunk::Chunk;
use crate::{Refusal, Spanned};

/// The numbers of a chunk row: kind, text start and end, span start and end.
pub const CHUNK_NUMBERS: usize = 5;

const NOT_UTF8: u32 = 2;
const BAD_ROWS: u32 = 17;

/// The chunks of a text by their rows; or 2 at the first ill-formed sequence of the text, or else
/// 17 for the rows.
pub fn chunks(text: &[u8], rows: &[u32]) -> Result<Vec<Spanned<Chunk>>, Refusal> {
    let text = std::str::from_utf8(text).map_err(|error| {
        let place = error.valid_up_to();
        Refusal::new(NOT_UTF8, place..place)
    })?;
    let rows = rows.chunks_exact(CHUNK_NUMBERS);
    let is_whole = rows.remainder().is_empty();
    let chunks: Option<Vec<_>> = rows.map(|row| chunk(text, row)).collect();
    let refusal = Refusal::new(BAD_ROWS, 0..0);
    chunks.filter(|_| is_whole).ok_or(refusal)
}

/// A chunk, unless its row has another kind or a text range outside the text, reversed, or across a
/// character: just these ranges `get` gives no text for.
fn chunk(text: &str, row: &[u32]) -> Option<Spanned<Chunk>> {
    let make = match row[0] {
        0 => Chunk::Normal,
        1 => Chunk::Verbatim,
        2 => Chunk::Math,
        _ => return None,
    };
    let part = text.get(row[1] as usize..row[2] as usize)?;
    Some(Spanned::new(
        make(part.into()),
        row[3] as usize..row[4] as usize,
    ))
}
