//! Safe wrappers over the proved library's C functions, as include/bib.h declares them.

mod call;
mod filing;
pub mod known;
mod resolving;
mod writing;

pub use filing::{resolve_file, Filed, LentForFile, ANSWER_NUMBERS};
pub use resolving::{
    resolve_field, resolve_literal, File, Lent, Resolved, LEAST_SCRATCH, MOST_LITERAL,
};
pub use writing::{format_sentence, format_verbatim, to_biblatex_string};

use call::{answer, call};

/// The toolchain that proved and compiled the library, and the sum of the sources that it was made of (`host/sources`). Both are empty
/// for a library that says neither, as one of `KNURRAVOE_LIB` that is not of lib/.
pub const KIT: &str = env!("BIB_KIT");
pub const SOURCES: &str = env!("BIB_SOURCES");

answer! {
    /// All that a function hands back beside what it writes.
    ///
    /// Where it accepts, `number`, `start` and `end` are 0; where it refuses, `count` is.
    Answer(count)
}

/// Reads a file strictly, with room for rows lent. Any file and any room will do.
pub fn read(file: &[u8], rows: &mut [u32]) -> Answer {
    call!(bib_read(reads file: u8; writes rows: u32;) -> Answer(count))
}

/// Salvages a file, with room for rows lent. `count` is the number of rows.
pub fn salvage(file: &[u8], rows: &mut [u32]) -> Answer {
    call!(bib_salvage(reads file: u8; writes rows: u32;) -> Answer(count))
}

/// Packs rows, four numbers each, into the bytes lent. `count` is the number of bytes.
pub fn pack(rows: &[u32], bytes: &mut [u8]) -> Answer {
    call!(bib_pack(reads rows: u32; writes bytes: u8;) -> Answer(count))
}

/// Unpacks bytes, seven a row, into the room lent. `count` is the number of rows.
pub fn unpack(bytes: &[u8], rows: &mut [u32]) -> Answer {
    call!(bib_unpack(reads bytes: u8; writes rows: u32;) -> Answer(count))
}
