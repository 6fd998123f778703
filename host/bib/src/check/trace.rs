//! How far reading comes in a damaged piece, and what is open there. The proved reader judges; this
//! follows raw.rs to the place of the refusal, so that a message can name the entry and the value.

use std::ops::Range;

use super::cursor::Cursor;
use super::field_in_value;

/// What is being read.
#[derive(Debug, Clone, Copy, PartialEq, Eq)]
pub(crate) enum Stage {
    Outside,
    Type,
    Opening,
    Comment,
    Preamble,
    /// The comma behind the key.
    KeyComma,
    FieldName,
    Equals,
    Value,
    /// The comma or the closing brace behind a value.
    ValueEnd,
    Closing,
}

#[derive(Debug, Clone, Copy, PartialEq, Eq)]
pub(crate) enum Form {
    Braced,
    Quoted,
    Number,
    Name,
}

/// A part of a value, with its delimiters.
#[derive(Debug, Clone, PartialEq, Eq)]
pub(crate) struct Part {
    pub form: Form,
    pub span: Range<usize>,
    pub is_closed: bool,
}

pub(crate) struct Trace<'a> {
    file: &'a [u8],
    cursor: Cursor<'a>,
    pub stage: Stage,
    /// The place of the "@" of what is being read.
    pub at: usize,
    pub kind: Range<usize>,
    pub key: Option<Range<usize>>,
    /// The name of the field that is being read, or was read last.
    pub field: Option<Range<usize>>,
    /// The part of a value that is being read, or was read last.
    pub part: Option<Part>,
    /// The first value that holds what looks like the next field: it was closed too late.
    pub late: Option<Part>,
}

/// Reading comes no further.
struct Stopped;

type Step = Result<(), Stopped>;

impl<'a> Trace<'a> {
    /// Reading of a piece, to where it stops.
    pub fn of(file: &'a [u8], piece: Range<usize>) -> Self {
        let mut trace = Self::begin(file, piece);
        while trace.goes_on() {}
        trace
    }

    /// Reading of a piece, before its first step.
    pub fn begin(file: &'a [u8], piece: Range<usize>) -> Self {
        Self {
            file,
            cursor: Cursor::new(file, piece.clone()),
            stage: Stage::Outside,
            at: piece.start,
            kind: piece.start..piece.start,
            key: None,
            field: None,
            part: None,
            late: None,
        }
    }

    /// Goes over the next character outside, or over what begins with an "@"; or stops in it.
    pub fn goes_on(&mut self) -> bool {
        self.next().is_ok()
    }

    /// The key of the entry over which the last step went.
    pub fn entry_passed(&self) -> Option<Range<usize>> {
        let is_passed = self.stage == Stage::Closing && !is_other(self.text(&self.kind));
        self.key.clone().filter(|_| is_passed)
    }

    /// Where reading stopped.
    pub fn place(&self) -> usize {
        self.cursor.place
    }

    /// The byte at which reading stopped, if the piece does not end there.
    pub fn next_byte(&self) -> Option<u8> {
        self.cursor.peek()
    }

    pub fn text(&self, span: &Range<usize>) -> &'a [u8] {
        &self.file[span.clone()]
    }

    /// Whether the type is this one, in small or large letters.
    pub fn is(&self, kind: &str) -> bool {
        self.text(&self.kind).eq_ignore_ascii_case(kind.as_bytes())
    }

    fn need(found: bool) -> Step {
        if found {
            Ok(())
        } else {
            Err(Stopped)
        }
    }

    /// Text outside, or what begins with an "@".
    fn next(&mut self) -> Step {
        self.stage = Stage::Outside;
        self.cursor.white();
        match self.cursor.peek() {
            None => Err(Stopped),
            Some(b'@') => self.item(),
            Some(b'%') => {
                self.cursor.comment();
                Ok(())
            }
            Some(_) => {
                self.cursor.eat_any();
                Ok(())
            }
        }
    }

    fn item(&mut self) -> Step {
        self.at = self.cursor.place;
        (self.key, self.field, self.part, self.late) = (None, None, None, None);
        self.cursor.eat(b'@');
        self.stage = Stage::Type;
        self.kind = self.cursor.place..self.cursor.place;
        self.kind = self.cursor.ident().ok_or(Stopped)?;
        self.cursor.white();
        self.stage = Stage::Opening;
        Self::need(self.cursor.eat(b'{') || self.cursor.eat(b'"'))?;
        self.cursor.white();
        if self.is("string") {
            self.fields()?;
        } else if self.is("preamble") {
            self.stage = Stage::Preamble;
            self.quoted()?;
        } else if self.is("comment") {
            self.stage = Stage::Comment;
            self.cursor.until(b'}');
        } else {
            self.body()?;
        }
        self.cursor.white();
        if self.stage != Stage::Comment {
            self.stage = Stage::Closing;
        }
        Self::need(self.cursor.eat(b'}') || self.cursor.eat(b'"'))
    }

    fn body(&mut self) -> Step {
        self.key = Some(self.cursor.key());
        self.stage = Stage::KeyComma;
        self.cursor.white();
        Self::need(self.cursor.eat(b','))?;
        self.stage = Stage::FieldName;
        self.cursor.white();
        self.cursor.comment();
        self.cursor.white();
        self.fields()
    }

    fn fields(&mut self) -> Step {
        while !self.cursor.is_done() {
            self.stage = Stage::FieldName;
            self.cursor.white();
            if self.cursor.peek() == Some(b'}') {
                return Ok(());
            }
            self.field = Some(self.cursor.ident().ok_or(Stopped)?);
            self.value()?;
            self.stage = Stage::ValueEnd;
            if self.cursor.peek() == Some(b'}') {
                return Ok(());
            }
            Self::need(self.cursor.eat(b','))?;
            self.stage = Stage::FieldName;
            self.cursor.white();
            self.cursor.comment();
        }
        Err(Stopped)
    }

    /// The equals sign, the parts of the value, and a comment behind it.
    fn value(&mut self) -> Step {
        self.cursor.white();
        self.stage = Stage::Equals;
        Self::need(self.cursor.eat(b'='))?;
        self.stage = Stage::Value;
        loop {
            self.cursor.white();
            self.part()?;
            self.cursor.white();
            if !self.cursor.eat(b'#') {
                break;
            }
        }
        self.cursor.comment();
        self.cursor.white();
        Ok(())
    }

    fn part(&mut self) -> Step {
        let start = self.cursor.place;
        self.part = None;
        match self.cursor.peek() {
            Some(b'{') => self.braced(),
            Some(b'"') => self.quoted(),
            Some(b'0'..=b'9') => self.number(),
            _ => {
                self.cursor.ident().ok_or(Stopped)?;
                self.read(Form::Name, start, true);
                Ok(())
            }
        }
    }

    /// Keeps a part that was read.
    fn read(&mut self, form: Form, start: usize, is_closed: bool) {
        let part = Part {
            form,
            span: start..self.cursor.place,
            is_closed,
        };
        let is_late = field_in_value(self.text(&part.span)).is_some();
        if is_late && self.late.is_none() {
            self.late = Some(part.clone());
        }
        self.part = Some(part);
    }

    fn braced(&mut self) -> Step {
        let mut open = 0;
        let is_last = |byte| {
            match byte {
                b'{' => open += 1,
                b'}' => open -= 1,
                _ => {}
            }
            open == 0
        };
        self.closed_by(is_last, Form::Braced, self.cursor.place)
    }

    fn quoted(&mut self) -> Step {
        let start = self.cursor.place;
        Self::need(self.cursor.eat(b'"'))?;
        self.closed_by(|byte| byte == b'"', Form::Quoted, start)
    }

    /// A part up to the byte that closes it. What stands behind a backslash closes nothing.
    fn closed_by(&mut self, mut is_last: impl FnMut(u8) -> bool, form: Form, start: usize) -> Step {
        while let Some(byte) = self.cursor.peek() {
            if byte == b'\\' {
                self.cursor.eat_any();
            }
            self.cursor.eat_any();
            if is_last(byte) {
                self.read(form, start, true);
                return Ok(());
            }
        }
        self.read(form, start, false);
        Err(Stopped)
    }

    /// At the end of the text a number is not known to be whole.
    fn number(&mut self) -> Step {
        let start = self.cursor.place;
        let mut has_point = false;
        while let Some(byte) = self.cursor.peek() {
            let is_second = byte == b'.' && has_point;
            let is_part = byte.is_ascii_digit() || byte == b'.';
            if is_second || !is_part {
                self.read(Form::Number, start, true);
                return Self::need(!is_second);
            }
            has_point |= byte == b'.';
            self.cursor.eat_any();
        }
        self.read(Form::Number, start, true);
        Err(Stopped)
    }
}

/// Whether what has this type is no entry.
pub(crate) fn is_other(kind: &[u8]) -> bool {
    let others = ["string", "preamble", "comment"];
    others
        .iter()
        .any(|other| kind.eq_ignore_ascii_case(other.as_bytes()))
}

#[cfg(test)]
mod tests {
    use super::*;
    use crate::check::{Items, Reading, What};
    use crate::{Kind, Reason};

    const PARTS: [&str; 31] = [
        "@",
        "a",
        "k",
        "{",
        "}",
        "\"",
        ",",
        "=",
        "#",
        "%",
        "\n",
        " ",
        "1",
        ".",
        "\\",
        "(",
        "-",
        "@string{",
        "@comment{",
        "@preamble{",
        "@preamble{\"",
        "@a{k,",
        "a = {b}",
        "a = 1",
        ",\n",
        "}\n",
        "é",
        "“",
        "😀",
        "\u{a0}",
        "% b\n",
    ];

    /// Texts of some parts, drawn by a rule.
    fn texts(count: usize) -> impl Iterator<Item = String> {
        let mut state = 7u64;
        let mut draw = move |below: usize| {
            state = state
                .wrapping_mul(6364136223846793005)
                .wrapping_add(1442695040888963407);
            (state >> 33) as usize % below
        };
        (0..count).map(move |_| {
            let length = draw(14);
            (0..length).map(|_| PARTS[draw(PARTS.len())]).collect()
        })
    }

    /// It comes to the place at which the proved reader refuses, always; and what that refuses is the whole
    /// character there, or nothing where the piece ends.
    #[test]
    fn stops_where_the_reader_does() {
        // By the bytes of the character.
        let mut damaged = [0; 5];
        for text in texts(200_000) {
            let rows = crate::salvage(text.as_bytes()).unwrap();
            for (piece, cause) in rows.iter().zip(rows.iter().skip(1)) {
                if piece.kind == Kind::Damage {
                    assert_ne!(cause.detail, Reason::NotUtf8.number());
                    let trace = Trace::of(text.as_bytes(), piece.span());
                    assert_eq!(trace.place(), cause.start, "{text:?}");
                    let bytes = length_of_first(&text[cause.start..piece.end]);
                    assert_eq!(cause.end - cause.start, bytes, "{text:?}");
                    damaged[bytes] += 1;
                }
            }
        }
        assert!(damaged.iter().all(|count| *count > 900), "{damaged:?}");
    }

    /// What strict reading refuses is the whole character too, or nothing where the file ends.
    #[test]
    fn strict_reading_refuses_whole_characters() {
        let mut refused = [0; 5];
        for text in texts(200_000) {
            if let Err(refusal) = crate::read(text.as_bytes()) {
                let bytes = length_of_first(&text[refusal.start..]);
                assert_eq!(refusal.end - refusal.start, bytes, "{text:?}");
                refused[bytes] += 1;
            }
        }
        assert!(refused.iter().all(|count| *count > 900), "{refused:?}");
    }

    /// The bytes of the first character; 0 where there is none.
    fn length_of_first(text: &str) -> usize {
        text.chars().next().map_or(0, char::len_utf8)
    }

    /// The items hold all rows in order, and all text but white space.
    #[test]
    fn items_hold_everything() {
        for text in texts(200_000) {
            let file = text.as_bytes();
            let reading = Reading::of(file).unwrap();
            let (mut place, mut row) = (0, 0);
            for item in Items::of(file, &reading.rows) {
                assert!(text[place..item.span.start].trim().is_empty(), "{text:?}");
                assert_eq!(item.rows.start, row, "{text:?}");
                let first = reading.rows.get(item.rows.start);
                if matches!(item.what, What::Entry | What::Damage) {
                    assert_eq!(
                        first.map(|row| row.start),
                        Some(item.span.start),
                        "{text:?}"
                    );
                }
                if !matches!(item.what, What::Outside | What::Damage) {
                    assert!(matches!(file[item.span.end - 1], b'}' | b'"'), "{text:?}");
                }
                (place, row) = (item.span.end, item.rows.end);
            }
            assert!(text[place..].trim().is_empty(), "{text:?}");
            assert_eq!(row, reading.rows.len(), "{text:?}");
        }
    }
}
