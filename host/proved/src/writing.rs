//! The writers, which take a text and the rows of its chunks.

use crate::call::call;
use crate::Answer;

/// Formats chunks verbatim into the bytes lent. `count` is the number of bytes.
pub fn format_verbatim(text: &[u8], rows: &[u32], bytes: &mut [u8]) -> Answer {
    call!(bib_format_verbatim(reads text: u8, rows: u32; writes bytes: u8;) -> Answer(count))
}

/// Formats chunks in sentence case into the bytes lent. `count` is the number of bytes.
pub fn format_sentence(text: &[u8], rows: &[u32], bytes: &mut [u8]) -> Answer {
    call!(bib_format_sentence(reads text: u8, rows: u32; writes bytes: u8;) -> Answer(count))
}

/// Writes chunks as BibLaTeX into the bytes lent, for a verbatim field unless `verbatim` is 0.
/// `count` is the number of bytes.
pub fn to_biblatex_string(text: &[u8], rows: &[u32], verbatim: u32, bytes: &mut [u8]) -> Answer {
    call!(bib_to_biblatex_string(
        reads text: u8, rows: u32;
        numbers verbatim: u32;
        writes bytes: u8;
    ) -> Answer(count))
}
