//! The functions that resolve, which write chunk rows and their text, and are lent scratch.

use crate::call::{answer, call};

/// The most bytes that a literal may have, and the least that scratch must have.
pub const MOST_LITERAL: usize = 16_384;
pub const LEAST_SCRATCH: usize = 32_768;

/// What is lent to a function that resolves: scratch, and room for chunk rows and for text.
pub struct Lent<'a> {
    pub scratch: &'a mut [u8],
    pub chunks: &'a mut [u32],
    pub text: &'a mut [u8],
}

answer! {
    /// All that such a function hands back beside what it writes.
    ///
    /// Where it accepts, `number`, `start` and `end` are 0, `count` is the number of chunk rows, `bytes`
    /// that of the text's bytes and `names` that of the names resolved; where it refuses, these are 0.
    Resolved(count, bytes, names)
}

/// Resolves the literal that stands in a file from a byte up to another, of a verbatim field unless
/// `verbatim` is 0. Any ends and any room will do; the scratch holds zeros afterwards.
pub fn resolve_literal(
    file: &[u8],
    from: usize,
    to: usize,
    verbatim: u32,
    lent: &mut Lent,
) -> Resolved {
    call!(bib_resolve_literal(
        reads file: u8;
        numbers from: usize, to: usize, verbatim: u32;
        writes lent.scratch: u8, lent.chunks: u32, lent.text: u8;
    ) -> Resolved(count, bytes, names))
}

/// A file with its rows, and month words: four numbers each, which say where the word begins and
/// ends in `words`, and where its text does.
#[derive(Clone, Copy)]
pub struct File<'a> {
    pub bytes: &'a [u8],
    pub rows: &'a [u32],
    pub months: &'a [u32],
    pub words: &'a [u8],
}

/// Resolves the value whose row is number `which` of a file's rows, from 0, of a verbatim field
/// unless `verbatim` is 0. Any numbers and any room will do; the scratch holds zeros afterwards.
pub fn resolve_field(file: File, which: usize, verbatim: u32, lent: &mut Lent) -> Resolved {
    call!(bib_resolve_field(
        reads file.bytes: u8, file.rows: u32;
        numbers which: usize, verbatim: u32;
        reads file.months: u32, file.words: u8;
        writes lent.scratch: u8, lent.chunks: u32, lent.text: u8;
    ) -> Resolved(count, bytes, names))
}
