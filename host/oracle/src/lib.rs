//! The original Rust as judge of the proved reader.
//!
//! raw.rs, resolve.rs and chunk.rs of typst/biblatex are compiled here unchanged, from a folder
//! that build.rs finds; nothing of them is kept in this repository. This crate root gives them what
//! they import from theirs (`Span`, `Spanned`, and the stand-ins in `types` and `mechanics`), and
//! `read` turns what the Rust answers into the rows and the numbers of document 01, with the places of
//! document 02. `chunks` turns rows of chunks into the Rust's own, and `resolve_literal` the Rust's
//! chunks of a literal into rows, as `Fields` those of a field.

mod chunks;
mod fields;
mod literals;
pub mod mechanics;
mod places;
mod rows;
mod salvage;
pub mod types;

include!(concat!(env!("OUT_DIR"), "/rust.rs"));

use std::fmt;

pub use chunk::ChunksExt;
pub use chunks::{chunks, CHUNK_NUMBERS};
pub use fields::{Fields, Given, DEEPEST_NAME, MOST_NAMES};
pub use literals::{chunks_of, resolve_literal, Resolved, LEAST_SCRATCH, LONGEST_LITERAL};
pub use rows::{read, read_into, Kind, Refusal, Row, LONGEST_FILE};
pub use salvage::{salvage, salvage_into};
pub use types::{TypeError, TypeErrorKind};

/// Where composition comes from, and the letters that it does not know yet.
pub use unicode_normalization::{LATER, SOURCE as COMPOSITION};

/// A range of bytes.
pub type Span = std::ops::Range<usize>;

/// A value and where it stands.
#[derive(Clone, Eq, PartialEq)]
pub struct Spanned<T> {
    pub v: T,
    pub span: Span,
}

impl<T> Spanned<T> {
    pub fn new(v: T, span: Span) -> Self {
        Self { v, span }
    }

    /// Whether the span points nowhere, which only the left-out parts of the Rust make.
    pub fn is_detached(&self) -> bool {
        self.span.start == usize::MAX
    }
}

impl<T: fmt::Debug> fmt::Debug for Spanned<T> {
    fn fmt(&self, f: &mut fmt::Formatter) -> fmt::Result {
        write!(f, "{:?} at {:?}", self.v, self.span)
    }
}
