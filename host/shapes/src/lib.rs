//! The names and shapes of raw.rs, resolve.rs and chunk.rs of typst/biblatex, made from what the proved
//! library answers: code that is written against those three modules moves over by its `use` lines.
//!
//! ```
//! use biblatex_shapes::raw::RawBibliography;
//! use biblatex_shapes::resolve::parse_field;
//! use biblatex_shapes::ChunksExt;
//!
//! let raw = RawBibliography::parse(r"@string{g = {G{\'o}del}} @a{k, t = g # { and others}}").unwrap();
//! let abbreviations = raw.abbreviations.iter().map(|p| (p.key.v, &p.value.v)).collect();
//! let field = &raw.entries[0].v.fields[0];
//! let chunks = parse_field(field.key.v, &field.value.v, &abbreviations).unwrap();
//! assert_eq!(chunks.format_verbatim(), "Gódel and others");
//! ```
//!
//! What is not here: what parses chunks into types, and serde. What is more: the limits of the proved
//! library are refusals here, with kinds of their own, where the original has no limit or does not end.
//! Errors have other words here, and those of reading other spans ([`ParseError::span`]).

pub mod chunk;
mod lent;
pub mod raw;
pub mod resolve;

pub use chunk::{Chunk, Chunks, ChunksExt, ChunksRef};
pub use raw::{
    Field, Pair, ParseError, ParseErrorKind, RawBibliography, RawChunk, RawEntry, Token,
};

use std::fmt;

/// A range of bytes of a source.
pub type Span = std::ops::Range<usize>;

/// A value, and where it stands in its source.
#[derive(Clone, Eq, PartialEq)]
pub struct Spanned<T> {
    pub v: T,
    pub span: Span,
}

impl<T> Spanned<T> {
    pub fn new(v: T, span: Span) -> Self {
        Self { v, span }
    }

    /// At the beginning of a source, with no bytes.
    pub fn zero(v: T) -> Self {
        Self::new(v, 0..0)
    }

    /// Nowhere.
    pub fn detached(v: T) -> Self {
        Self::new(v, usize::MAX..usize::MAX)
    }

    /// Whether it stands nowhere.
    pub fn is_detached(&self) -> bool {
        self.span.start == usize::MAX
    }

    pub fn as_ref(&self) -> Spanned<&T> {
        Spanned::new(&self.v, self.span.clone())
    }

    /// Another value at the same place.
    pub fn map<F, U>(self, f: F) -> Spanned<U>
    where
        F: FnOnce(T) -> U,
    {
        Spanned::new(f(self.v), self.span)
    }
}

impl<T: fmt::Debug> fmt::Debug for Spanned<T> {
    /// The value; in the long form with its place.
    fn fmt(&self, f: &mut fmt::Formatter) -> fmt::Result {
        self.v.fmt(f)?;
        match f.alternate() {
            true => write!(f, " <{:?}>", self.span),
            false => Ok(()),
        }
    }
}
