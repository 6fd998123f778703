//! A stand-in for the crate `unscanny`, which cannot be had here.
//!
//! Written from that crate's public documentation: a scanner over a string, whose cursor always
//! stands between two characters. It has what the Rust's three modules call, and `jump`, which the
//! oracle's own walk needs. For a fair benchmark the rest of the string is taken without a bounds
//! check, so that the Rust is not slowed down by its stand-in.

/// What a character is tested against: itself, one of several, or a test.
pub trait Pattern {
    /// Whether the character matches.
    fn matches(&mut self, c: char) -> bool;
}

impl Pattern for char {
    #[inline]
    fn matches(&mut self, c: char) -> bool {
        *self == c
    }
}

impl<const N: usize> Pattern for [char; N] {
    #[inline]
    fn matches(&mut self, c: char) -> bool {
        self.contains(&c)
    }
}

impl<F: FnMut(char) -> bool> Pattern for F {
    #[inline]
    fn matches(&mut self, c: char) -> bool {
        self(c)
    }
}

/// A string and a place in it.
#[derive(Debug, Copy, Clone)]
pub struct Scanner<'a> {
    string: &'a str,
    /// At most the string's length, and on a character boundary.
    cursor: usize,
}

impl<'a> Scanner<'a> {
    /// A scanner at the string's start.
    #[inline]
    pub fn new(string: &'a str) -> Self {
        Self { string, cursor: 0 }
    }

    /// The place, in bytes.
    #[inline]
    pub fn cursor(&self) -> usize {
        self.cursor
    }

    /// Whether nothing is left.
    #[inline]
    pub fn done(&self) -> bool {
        self.cursor == self.string.len()
    }

    /// What is left.
    #[inline]
    fn after(&self) -> &'a str {
        // SAFETY: the cursor is inside the string and on a character boundary: it starts at 0,
        // `eat` moves it by the length of the character that stands there, and `jump` tests its
        // target.
        unsafe { self.string.get_unchecked(self.cursor..) }
    }

    /// The text from a place to the cursor. The place must be a former cursor.
    #[inline]
    pub fn from(&self, start: usize) -> &'a str {
        &self.string[start..self.cursor]
    }

    /// The next character.
    #[inline]
    pub fn peek(&self) -> Option<char> {
        self.after().chars().next()
    }

    /// Takes the next character.
    #[inline]
    pub fn eat(&mut self) -> Option<char> {
        let next = self.peek();
        if let Some(c) = next {
            self.cursor += c.len_utf8();
        }
        next
    }

    /// Takes the next character if it matches, and says whether it did.
    #[inline]
    pub fn eat_if(&mut self, mut pattern: impl Pattern) -> bool {
        let matched = self.peek().is_some_and(|c| pattern.matches(c));
        if matched {
            self.eat();
        }
        matched
    }

    /// Takes characters as long as they match, and gives them.
    #[inline]
    pub fn eat_while(&mut self, mut pattern: impl Pattern) -> &'a str {
        let start = self.cursor;
        while let Some(c) = self.peek() {
            if !pattern.matches(c) {
                break;
            }
            self.cursor += c.len_utf8();
        }
        self.from(start)
    }

    /// Takes characters up to the first that matches, or all, and gives them.
    #[inline]
    pub fn eat_until(&mut self, mut pattern: impl Pattern) -> &'a str {
        self.eat_while(|c| !pattern.matches(c))
    }

    /// Takes white space, and gives it.
    #[inline]
    pub fn eat_whitespace(&mut self) -> &'a str {
        self.eat_while(char::is_whitespace)
    }

    /// Moves the cursor, which must land on a character boundary of the string.
    #[inline]
    pub fn jump(&mut self, target: usize) {
        assert!(self.string.is_char_boundary(target));
        self.cursor = target;
    }
}
