//! The entries of a damaged piece. None of them is read, so that each has to be named: those that stand
//! before the damage, the one that it is in, and what begins like an entry behind it.

use std::ops::Range;

use super::cursor::Cursor;
use super::misspelt::is_type;
use super::text::without_blanks;
use super::trace::{is_other, Stage, Trace};

/// The beginning of an entry.
#[derive(Debug, Clone, PartialEq, Eq)]
pub(crate) struct Head {
    /// The place of its "@".
    pub at: usize,
    /// Its key, if it has one.
    pub key: Option<Range<usize>>,
}

/// The entries of a damaged piece, in file order. Reading is followed as far as it comes; from there on
/// what begins like an entry is one, so that each byte is looked at a few times and not more.
pub(crate) struct Heads<'a> {
    file: &'a [u8],
    end: usize,
    /// Reading, until it stops.
    trace: Option<Trace<'a>>,
    place: usize,
}

impl<'a> Heads<'a> {
    pub fn of(file: &'a [u8], piece: Range<usize>) -> Self {
        Self {
            file,
            end: piece.end,
            trace: Some(Trace::begin(file, piece.clone())),
            place: piece.start,
        }
    }

    /// The next entry that reading passes, or comes into.
    fn read(&mut self) -> Option<Head> {
        let trace = self.trace.as_mut()?;
        while trace.goes_on() {
            if let Some(key) = trace.entry_passed() {
                return Some(Head {
                    at: trace.at,
                    key: Some(key).filter(|key| !key.is_empty()),
                });
            }
        }
        let stopped = (trace.stage != Stage::Outside).then_some(trace.at);
        self.trace = None;
        self.place = stopped.map_or(self.end, |at| at + 1);
        head_at(self.file, stopped?..self.end)
    }

    /// The next text that begins like an entry, at the beginning of a line or behind a closing brace.
    fn find(&mut self) -> Option<Head> {
        loop {
            let rest = &self.file[self.place..self.end];
            let at = self.place + rest.iter().position(|byte| *byte == b'@')?;
            let before = without_blanks(&self.file[self.place..at]);
            let before = without_blanks(before.strip_suffix(b",").unwrap_or(before));
            self.place = at + 1;
            if matches!(before.last(), Some(b'\n' | b'\r' | b'}')) {
                let head = head_at(self.file, at..self.end);
                if head.as_ref().is_some_and(|head| head.key.is_some()) {
                    return head;
                }
            }
        }
    }
}

impl Iterator for Heads<'_> {
    type Item = Head;

    fn next(&mut self) -> Option<Head> {
        self.read().or_else(|| self.find())
    }
}

/// A type, and what stands behind it where another bracket is taken for a part of its name: `article[k`.
pub(crate) fn divided(kind: &[u8]) -> (&[u8], &[u8]) {
    let bracket = kind.iter().position(|byte| matches!(byte, b'[' | b'<'));
    match bracket {
        Some(place) => (&kind[..place], &kind[place + 1..]),
        None => (kind, b""),
    }
}

/// The entry that begins with the "@" of this text, though its type or its brace may be missing: then a
/// comma must follow the key, unless the type is known, since an "@" may stand in running text.
pub(crate) fn head_at(file: &[u8], text: Range<usize>) -> Option<Head> {
    let at = text.start;
    let mut cursor = Cursor::new(file, text);
    if !cursor.eat(b'@') {
        return None;
    }
    cursor.white();
    let kind = cursor.ident();
    if kind
        .as_ref()
        .is_some_and(|kind| is_other(&file[kind.clone()]))
    {
        return None;
    }
    let (name, rest) = divided(kind.as_ref().map_or(b"", |kind| &file[kind.clone()]));
    let is_typed = is_type(name);
    if is_typed && !rest.is_empty() {
        cursor.place -= rest.len();
    }
    cursor.white();
    // The reader takes a quotation mark for a brace.
    let is_open = cursor.eat(b'{') || cursor.eat(b'"');
    let is_begun = is_open || cursor.eat(b'(') || begins_line(file, at);
    cursor.white();
    let key = cursor.key();
    let is_ended = cursor.peek().is_none_or(|byte| byte.is_ascii_whitespace());
    cursor.white();
    let is_comma = cursor.peek() == Some(b',');
    // The comma may be missing with the brace.
    let is_key = !key.is_empty() && (is_comma || !is_open && is_typed && is_ended);
    let is_entry = is_open && kind.is_some() || is_begun && is_key;
    is_entry.then(|| Head {
        at,
        key: Some(key).filter(|_| is_key),
    })
}

/// Whether only blanks stand before a place on its line.
fn begins_line(file: &[u8], place: usize) -> bool {
    let before = without_blanks(&file[..place]);
    matches!(before.last(), None | Some(b'\n' | b'\r'))
}

#[cfg(test)]
mod tests {
    use super::*;

    /// The keys of a piece's entries; an entry without one is a dash.
    fn keys(piece: &str) -> Vec<&str> {
        let heads = Heads::of(piece.as_bytes(), 0..piece.len());
        heads
            .map(|head| head.key.map_or("-", |key| &piece[key]))
            .collect()
    }

    #[test]
    fn entries_of_damaged_pieces() {
        assert_eq!(keys("@a{k, t = }"), ["k"]);
        assert_eq!(keys("@a{k,} @b{l, t = {x}} @c{m, t}"), ["k", "l", "m"]);
        assert_eq!(keys("@a{k, t = {x}\n @b{l,\n}\n\t@c{m,}"), ["k", "l", "m"]);
        assert_eq!(keys("@a{k, t = {x\n\n  @b {l ,\n  t = {y}}"), ["k", "l"]);
        assert_eq!(keys("@a(k, t = 1)"), ["k"]);
        assert_eq!(keys("@{k, t = 1}"), ["k"]);
        assert_eq!(keys("@ book{k, t = 1}"), ["k"]);
        assert_eq!(keys("@article a14,\n t = 1}"), ["a14"]);
        assert_eq!(keys("@article a14\n t = 1}"), ["a14"]);
        assert_eq!(keys("@article[a14, t = 1]"), ["a14"]);
        assert_eq!(keys("@Book<a14,\n t = 1>"), ["a14"]);
        assert_eq!(keys("@a{, t = }"), ["-"]);
        assert_eq!(keys("@a{k"), ["-"]);
    }

    #[test]
    fn what_is_no_entry() {
        assert_eq!(keys("mail me@home, please"), [""; 0]);
        assert_eq!(keys("@home we\n"), [""; 0]);
        assert_eq!(keys("@home[we\n"), [""; 0]);
        assert_eq!(keys("@"), [""; 0]);
        assert_eq!(keys("@string{a = }\n @comment{x}"), [""; 0]);
        assert_eq!(keys("@a{k, t = {mail me @home\n @work} u}"), ["k"]);
    }
}
