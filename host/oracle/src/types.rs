//! Stand-ins for what the three modules take from the Rust's `types`.

use std::cell::RefCell;
use std::collections::HashSet;
use std::convert::Infallible;
use std::fmt;

use crate::chunk::ChunksRef;
use crate::Span;

/// An error of parsing a field into a type, which is left out here: there is none.
#[derive(Debug, Clone, PartialEq)]
pub struct TypeError {
    pub span: Span,
    pub kind: TypeErrorKind,
}

/// The kind of such an error. It has no value.
#[derive(Debug, Clone, PartialEq)]
pub struct TypeErrorKind(Infallible);

impl fmt::Display for TypeErrorKind {
    fn fmt(&self, _: &mut fmt::Formatter) -> fmt::Result {
        match self.0 {}
    }
}

/// What a field can be parsed into. Nothing here implements it.
pub trait Type: Sized {
    fn from_chunks(chunks: ChunksRef) -> Result<Self, TypeError>;
}

/// Month words with their texts.
pub(crate) type Months = Vec<(String, &'static str)>;

thread_local! {
    /// The month words that are lent, and the texts of all that were.
    static MONTHS: RefCell<Months> = const { RefCell::new(Vec::new()) };
    static TEXTS: RefCell<HashSet<&'static str>> = RefCell::new(HashSet::new());
}

/// A text that stays, as the Rust wants a month's: each is kept once.
pub(crate) fn kept(text: &str) -> &'static str {
    TEXTS.with_borrow_mut(|texts| match texts.get(text) {
        Some(kept) => kept,
        None => {
            let text: &'static str = Box::leak(text.into());
            texts.insert(text);
            text
        }
    })
}

/// Calls with these month words lent.
pub(crate) fn with_months<T>(months: &Months, call: impl FnOnce() -> T) -> T {
    MONTHS.with_borrow_mut(|lent| lent.clone_from(months));
    let answer = call();
    MONTHS.with_borrow_mut(Vec::clear);
    answer
}

/// Calls with these month words and their texts lent.
pub fn lending_months<T>(months: &[(&str, &str)], call: impl FnOnce() -> T) -> T {
    let month = |(word, text): &(&str, &str)| (word.to_string(), kept(text));
    with_months(&months.iter().map(month).collect(), call)
}

/// The text of a month word, and its number from 0, which nobody asks for. Of equal words the first
/// counts.
///
/// Only resolving asks; strict reading never does. The Rust's own list is in a file that cannot be
/// had, and 01 has the caller lend the words.
pub fn get_month_for_abbr(word: &str) -> Option<(&'static str, u8)> {
    MONTHS.with_borrow(|months| {
        let month = months.iter().position(|(lent, _)| lent == word)?;
        Some((months[month].1, month as u8))
    })
}
