//! A place in a text that goes on over the small parts of which the grammar is made, with
//! raw.rs's character classes. It judges nothing: it follows what the proved reader has judged.

use std::ops::Range;

#[derive(Debug, Clone)]
pub(crate) struct Cursor<'a> {
    file: &'a [u8],
    pub place: usize,
    end: usize,
}

impl<'a> Cursor<'a> {
    pub fn new(file: &'a [u8], span: Range<usize>) -> Self {
        Self {
            file,
            place: span.start,
            end: span.end,
        }
    }

    pub fn peek(&self) -> Option<u8> {
        self.file[..self.end].get(self.place).copied()
    }

    pub fn is_done(&self) -> bool {
        self.place >= self.end
    }

    /// The character here. A byte that is not UTF-8 is the replacement character.
    fn character(&self) -> Option<char> {
        let byte = self.peek()?;
        if byte.is_ascii() {
            return Some(byte as char);
        }
        let few = &self.file[self.place..self.end.min(self.place + 4)];
        let valid = few.utf8_chunks().next()?.valid();
        valid.chars().next().or(Some(char::REPLACEMENT_CHARACTER))
    }

    /// Goes over one character that passes the test.
    fn pass(&mut self, test: impl Fn(char) -> bool) -> bool {
        let found = self.character().filter(|c| test(*c));
        if let Some(c) = found {
            let is_real =
                c.is_ascii() || self.file[self.place..].starts_with(encoded(c, &mut [0; 4]));
            self.place += if is_real { c.len_utf8() } else { 1 };
        }
        found.is_some()
    }

    /// Goes over this byte, if it stands here.
    pub fn eat(&mut self, byte: u8) -> bool {
        let found = self.peek() == Some(byte);
        self.place += usize::from(found);
        found
    }

    /// Goes over one character, whichever it is.
    pub fn eat_any(&mut self) {
        self.pass(|_| true);
    }

    pub fn white(&mut self) {
        while self.pass(char::is_whitespace) {}
    }

    /// Goes on to this byte, or to the end.
    pub fn until(&mut self, byte: u8) {
        let rest = &self.file[self.place..self.end];
        self.place += rest.iter().position(|b| *b == byte).unwrap_or(rest.len());
    }

    /// Goes over a comment to the end of its line, if one begins here.
    pub fn comment(&mut self) {
        if self.eat(b'%') {
            self.until(b'\n');
        }
    }

    /// Goes over an identifier, or nothing.
    pub fn ident(&mut self) -> Option<Range<usize>> {
        let start = self.place;
        let begins = self.character().is_some_and(is_id_start);
        while begins && self.pass(is_id_continue) {}
        begins.then_some(start..self.place)
    }

    /// Goes over an entry's key, which may be empty.
    pub fn key(&mut self) -> Range<usize> {
        let start = self.place;
        while self.pass(is_key) {}
        start..self.place
    }
}

fn encoded(c: char, room: &mut [u8; 4]) -> &[u8] {
    c.encode_utf8(room).as_bytes()
}

fn is_key(c: char) -> bool {
    !matches!(c, ',' | '}') && !c.is_control() && !c.is_whitespace()
}

fn is_id_start(c: char) -> bool {
    !matches!(c, ':' | '<' | '-' | '>') && is_id_continue(c)
}

pub(crate) fn is_id_continue(c: char) -> bool {
    let is_other = matches!(
        c,
        '@' | '{' | '}' | '"' | '#' | '\'' | '(' | ')' | ',' | '=' | '%' | '\\' | '~'
    );
    !is_other && !c.is_control() && !c.is_whitespace()
}
