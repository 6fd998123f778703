//! Chunks: what the writers of chunks need, and what they and resolving give.

/// The numbers of a chunk row.
pub(crate) const NUMBERS: usize = 5;

/// What is resolved: the rows of its chunks, five numbers each as `format_verbatim` takes them, and
/// the text that they are rows of.
#[derive(Debug, Clone, PartialEq, Eq)]
pub struct Resolved {
    pub text: String,
    pub rows: Vec<u32>,
    /// How many names were resolved, month words included. A literal has none.
    pub names: usize,
}

impl Resolved {
    /// What an answer that accepts has in the room that was lent for rows and text.
    pub(crate) fn new(rows: Vec<u32>, bytes: Vec<u8>, answer: proved::Resolved) -> Self {
        Self {
            text: text(written(bytes, answer.bytes as usize)),
            rows: written(rows, answer.count as usize * NUMBERS),
            names: answer.names as usize,
        }
    }
}

/// The written beginning of what was lent, and no more memory than that takes.
pub(crate) fn written<T>(mut lent: Vec<T>, count: usize) -> Vec<T> {
    lent.truncate(count);
    lent.shrink_to_fit();
    lent
}

/// The braces around a BibLaTeX string, and the extra one that may be open at its end.
const AROUND: usize = 3;

/// The most bytes that chunks are written as, where each byte of theirs is written as `each` at
/// most and two more are put around a chunk. Rows that are refused have some number too: they need
/// none.
pub(crate) fn most(text: &[u8], rows: &[u32], each: usize) -> usize {
    let chunk = |row: &[u32]| {
        let length = row[2].saturating_sub(row[1]) as usize;
        length.min(text.len()) * each + 2
    };
    let all = rows.chunks_exact(NUMBERS).map(chunk);
    all.fold(AROUND, usize::saturating_add)
}

/// What a writer wrote, which is UTF-8 (`WellFormed` of crates/chunk/specs/WellFormed.antt), or
/// resolving: whole characters of the file, and those that commands stand for.
pub(crate) fn text(bytes: Vec<u8>) -> String {
    String::from_utf8(bytes).expect("the proved calls write UTF-8")
}
