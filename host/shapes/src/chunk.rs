//! Chunks: the parts of a value that is resolved, and what is written of them.

use crate::lent::{self, Way};
use crate::{Span, Spanned};

/// The chunks of a value.
pub type Chunks = Vec<Spanned<Chunk>>;

/// Some chunks.
pub type ChunksRef<'a> = &'a [Spanned<Chunk>];

/// A part of a value: plain text, text that stood in braces of its own, or text between dollars.
#[derive(Debug, Clone, Eq, PartialEq)]
pub enum Chunk {
    Normal(String),
    Verbatim(String),
    Math(String),
}

impl Chunk {
    /// Its text.
    pub fn get(&self) -> &str {
        match self {
            Self::Normal(text) | Self::Verbatim(text) | Self::Math(text) => text,
        }
    }

    /// Its text, to be changed.
    pub fn get_mut(&mut self) -> &mut String {
        match self {
            Self::Normal(text) | Self::Verbatim(text) | Self::Math(text) => text,
        }
    }

    /// Its text with backslashes before what needs them, for a verbatim field, as `file`, or another.
    /// That of Math has none.
    pub fn to_biblatex_string(&self, is_verbatim: bool) -> String {
        if let Self::Math(text) = self {
            return text.clone();
        }
        let way = Way::Biblatex { is_verbatim };
        let mut written = lent::write(&[(NORMAL, self.get())], way);
        // The braces around all.
        written.pop();
        written.remove(0);
        written
    }

    /// Its number in a row.
    fn kind(&self) -> u32 {
        match self {
            Self::Normal(_) => NORMAL,
            Self::Verbatim(_) => VERBATIM,
            Self::Math(_) => MATH,
        }
    }

    /// The chunk of a row's kind.
    pub(crate) fn of(kind: u32, text: &str) -> Self {
        let make = match kind {
            NORMAL => Self::Normal,
            VERBATIM => Self::Verbatim,
            _ => Self::Math,
        };
        make(text.into())
    }
}

/// The numbers of the kinds in a row.
const NORMAL: u32 = 0;
const VERBATIM: u32 = 1;
const MATH: u32 = 2;

/// What is done with chunks.
pub trait ChunksExt {
    /// Their texts in sentence case: what is Normal in lower case, save the first character of the first
    /// chunk, which is in upper case; line ends and Math as below.
    fn format_sentence(&self) -> String;

    /// Their texts in a row, with a space for a line end in Normal ones and dollars around Math.
    fn format_verbatim(&self) -> String;

    /// From where the first begins to where the last ends.
    fn span(&self) -> Span;

    /// A BibLaTeX string, in its braces, for a verbatim field, as `file`, or another.
    fn to_biblatex_string(&self, is_verbatim: bool) -> String;
}

impl ChunksExt for [Spanned<Chunk>] {
    fn format_sentence(&self) -> String {
        lent::write(&parts(self), Way::Sentence)
    }

    fn format_verbatim(&self) -> String {
        lent::write(&parts(self), Way::Verbatim)
    }

    fn span(&self) -> Span {
        match self {
            [] => 0..0,
            [first, ..] => first.span.start..self[self.len() - 1].span.end,
        }
    }

    fn to_biblatex_string(&self, is_verbatim: bool) -> String {
        lent::write(&parts(self), Way::Biblatex { is_verbatim })
    }
}

/// The kinds and texts of chunks.
fn parts(chunks: ChunksRef<'_>) -> Vec<(u32, &str)> {
    let chunks = chunks.iter().map(|chunk| &chunk.v);
    chunks.map(|chunk| (chunk.kind(), chunk.get())).collect()
}
