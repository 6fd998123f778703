//! The function that resolves every value of a file in one call.

use crate::call::{answer, call};
use crate::File;

/// The numbers of a value's answer.
pub const ANSWER_NUMBERS: usize = 6;

/// What is lent to resolve a whole file: scratch; the buckets of the index of names, of which there
/// may be any number, and a number for each row; and room for the answers, six numbers for each value,
/// for chunk rows and for text.
pub struct LentForFile<'a> {
    pub scratch: &'a mut [u8],
    pub heads: &'a mut [u32],
    pub next: &'a mut [u32],
    pub answers: &'a mut [u32],
    pub chunks: &'a mut [u32],
    pub text: &'a mut [u8],
}

answer! {
    /// All that the call hands back beside what it writes.
    ///
    /// Where it accepts, `number`, `start` and `end` are 0, `count` is the number of values, `chunk_rows`
    /// that of the chunk rows and `bytes` that of the text's bytes; where it refuses, these are 0.
    Filed(count, chunk_rows, bytes)
}

/// Resolves every value row of a file, in the order of the rows. The flag of a value is 0, or any other
/// number where its field is verbatim. Any numbers and any room will do; scratch and index hold zeros
/// afterwards.
pub fn resolve_file(file: File, flags: &[u8], lent: &mut LentForFile) -> Filed {
    call!(bib_resolve_file(
        reads file.bytes: u8, file.rows: u32, flags: u8, file.months: u32, file.words: u8;
        writes lent.scratch: u8, lent.heads: u32, lent.next: u32,
            lent.answers: u32, lent.chunks: u32, lent.text: u8;
    ) -> Filed(count, chunk_rows, bytes))
}
