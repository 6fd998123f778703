//! Where the preambles of an accepted file stand.
//!
//! The Rust joins their texts into one string and keeps no place of them, so the places are found
//! by a second walk over the file, which leans on the Rust for all that is hard. Why it is right,
//! for every file that the Rust accepts:
//!
//! 1. Between two items at the top level the Rust's parser holds nothing but its cursor. So it is
//!    enough that this walk stands where the parser stood each time an item starts.
//! 2. Outside items the parser goes on by white space, a `%` up to its newline, or one character;
//!    `walk` does the same.
//! 3. An item starts at `@`. If the Rust has an entry with that start, the item is that entry, and
//!    its span ends where the parser stood before the closing delimiter. Otherwise its name is
//!    `string`, `preamble` or `comment`, in any ASCII case, since every other accepted item is an
//!    entry.
//! 4. In `@string` each definition is one of the Rust's, with the place of its name and the end of
//!    its value. Between them stand only white space, one comma and comments, and `}` ends them: no
//!    name starts with `}`, `,` or `%`.
//! 5. `@comment` goes to its first `}`.
//! 6. A preamble's text ends at its first quote that no backslash takes. It must be what the joined
//!    string goes on with, followed by the joint or by the end.
//!
//! Every use of the Rust's answer is asserted, and at the end every entry, every definition and the
//! whole joined string must have been met, so that a slip in this walk stops the run. And
//! `tests/places.rs` finds the places another way, by the Rust's parser alone, and compares.

use std::slice::Iter;

use unscanny::Scanner;

use crate::raw::{is_id_continue, Pair, RawBibliography, RawEntry};
use crate::{Span, Spanned};

/// What the Rust puts between two preambles.
const JOINT: &str = " # ";

/// The places of the preambles with their quotes, from left to right.
pub fn preambles(text: &str, bibliography: &RawBibliography) -> Vec<Span> {
    if bibliography.preamble.is_empty() {
        return Vec::new();
    }
    let mut walk = Walk {
        s: Scanner::new(text),
        entries: bibliography.entries.iter(),
        definitions: bibliography.abbreviations.iter(),
        joined: &bibliography.preamble,
        found: Vec::new(),
    };
    walk.walk();
    assert!(walk.entries.as_slice().is_empty(), "an entry was not met");
    let left = walk.definitions.as_slice();
    assert!(left.is_empty(), "a definition was not met");
    assert!(walk.joined.is_empty(), "a preamble was not met");
    walk.found
}

struct Walk<'a> {
    s: Scanner<'a>,
    /// The Rust's entries that were not met yet.
    entries: Iter<'a, Spanned<RawEntry<'a>>>,
    /// The Rust's definitions that were not met yet.
    definitions: Iter<'a, Pair<'a>>,
    /// The rest of the joined string.
    joined: &'a str,
    found: Vec<Span>,
}

impl Walk<'_> {
    fn walk(&mut self) {
        while !self.s.done() {
            self.s.eat_whitespace();
            match self.s.peek() {
                Some('@') => self.item(),
                Some('%') => self.comment(),
                _ => {
                    self.s.eat();
                }
            }
        }
    }

    fn item(&mut self) {
        let start = self.s.cursor();
        match self.entries.as_slice().first() {
            Some(entry) if entry.span.start == start => {
                self.entries.next();
                self.s.jump(entry.span.end);
            }
            _ => self.no_entry(),
        }
        self.s.eat_whitespace();
        let closing = self.s.eat();
        assert!(matches!(closing, Some('}' | '"')), "an item is not closed");
    }

    /// An item that is no entry, up to the white space before its closing delimiter.
    fn no_entry(&mut self) {
        self.s.eat();
        let name = self.s.eat_while(is_id_continue);
        self.s.eat_whitespace();
        let opening = self.s.eat();
        assert!(matches!(opening, Some('{' | '"')), "an item is not opened");
        self.s.eat_whitespace();
        if name.eq_ignore_ascii_case("string") {
            self.definitions();
        } else if name.eq_ignore_ascii_case("preamble") {
            self.preamble();
        } else {
            assert!(
                name.eq_ignore_ascii_case("comment"),
                "an entry of no known name"
            );
            self.s.eat_until('}');
        }
    }

    fn definitions(&mut self) {
        loop {
            self.s.eat_whitespace();
            if self.s.peek() == Some('}') {
                return;
            }
            let next = self.definitions.next().expect("a definition of the Rust's");
            assert_eq!(next.key.span.start, self.s.cursor());
            self.s.jump(next.value.span.end);
            self.gap();
            self.s.eat_whitespace();
            if self.s.eat_if(',') {
                self.gap();
            }
        }
    }

    fn preamble(&mut self) {
        let start = self.s.cursor();
        assert!(self.s.eat_if('"'), "a preamble is not quoted");
        loop {
            match self.s.eat().expect("a preamble's closing quote") {
                '"' => break,
                '\\' => {
                    self.s.eat();
                }
                _ => {}
            }
        }
        let text = self.s.from(start);
        let rest = self.joined.strip_prefix(text).expect("the Rust's preamble");
        self.joined = rest.strip_prefix(JOINT).unwrap_or("");
        assert!(rest.is_empty() || self.joined.starts_with('"'), "no joint");
        self.found.push(start..self.s.cursor());
    }

    fn gap(&mut self) {
        self.s.eat_whitespace();
        self.comment();
    }

    fn comment(&mut self) {
        if self.s.eat_if('%') {
            self.s.eat_until('\n');
        }
    }
}
