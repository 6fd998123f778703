//! Hints: what can be done about a refusal, for what authors really write. Where it is valid BibTeX
//! that this reader refuses, the hint says so.

use super::cursor::Cursor;
use super::damage::{subject, Story};
use super::entries::is_odd;
use super::heads::{divided, head_at};
use super::lists::is_name_list;
use super::text::{is_conflict, is_typographic, quoted, without_blanks, CONFLICT, TYPOGRAPHIC};
use super::trace::{Form, Part, Stage};
use crate::Reason;

type Hint = Option<String>;

fn some(hint: &str) -> Hint {
    Some(hint.into())
}

impl Story<'_> {
    pub fn hint(&self) -> Hint {
        let known = self.conflict().or_else(|| self.no_key());
        let known = known.or_else(|| self.not_closed());
        known.or_else(|| match self.trace.stage {
            Stage::Outside | Stage::Comment => None,
            Stage::Type | Stage::Opening => self.opening(),
            Stage::Preamble | Stage::Closing => self.preamble(),
            Stage::KeyComma => self.key_comma(),
            Stage::FieldName => self.field_name(),
            Stage::Equals => self.equals(),
            Stage::Value => self.value(),
            Stage::ValueEnd => self.value_end(),
        })
    }

    fn next(&self) -> Option<u8> {
        self.trace.next_byte()
    }

    /// A list of names of which each has its own braces or quotation marks, as `"A" and "B"`.
    fn names_apart(&self, form: Form) -> Hint {
        let rest = &self.file[self.place..];
        let word = rest.iter().take_while(|byte| byte.is_ascii_alphabetic());
        let word = &rest[..word.count()];
        let field = self.trace.field.as_ref();
        let is_list = field.is_some_and(|field| is_name_list(self.trace.text(field)));
        // Quotation marks in a title are mostly so too; braces and other marks may be anything there.
        let length = match word {
            [] if is_list => rest.iter().take_while(|b| b"&;,".contains(b)).count(),
            b"and" if is_list || form == Form::Quoted => 3,
            _ if is_list && word.eq_ignore_ascii_case(b"and") => 3,
            _ => return None,
        };
        let next = rest[length..].trim_ascii_start().first();
        let written = match form {
            Form::Quoted => "\"A and B\"",
            _ => "{A and B}",
        };
        matches!(next, Some(b'"' | b'{'))
            .then(|| format!("a list of names is one value: write {written}"))
    }

    /// Whether the text goes on with another mark where a comma should stand before the next field.
    fn is_other_mark(&self) -> bool {
        let mut cursor = Cursor::new(self.file, self.place + 1..self.file.len());
        cursor.white();
        let is_mark = matches!(self.next(), Some(b';' | b'.' | b':'));
        let is_word = is_mark && cursor.ident().is_some();
        cursor.white();
        is_word && cursor.peek() == Some(b'=')
    }

    /// A line that a merge left.
    fn conflict(&self) -> Hint {
        let line = self.lines.at(self.place);
        is_conflict(line.text).then(|| CONFLICT.into())
    }

    /// Whether the text goes on with `word =`.
    fn is_field_next(&self) -> bool {
        let mut cursor = Cursor::new(self.file, self.place..self.file.len());
        let is_word = cursor.ident().is_some();
        cursor.white();
        is_word && cursor.peek() == Some(b'=')
    }

    /// `@article{` and then the first field.
    fn no_key(&self) -> Hint {
        let key = self.trace.text(self.trace.key.as_ref()?);
        let is_next = self.trace.stage == Stage::KeyComma && self.next() == Some(b'=');
        let is_field = is_next || is_odd(key) && !key.starts_with(b"@");
        let kind = quoted(self.trace.text(&self.trace.kind));
        is_field
            .then(|| format!("the entry has no key: write `@{kind}{{KEY,` before its first field"))
    }

    /// The value that took in the rest, or the closing brace that is missing.
    fn not_closed(&self) -> Hint {
        let is_behind = matches!(
            self.trace.stage,
            Stage::FieldName | Stage::Equals | Stage::ValueEnd
        );
        let culprit = self.culprit().filter(|_| self.is_open() || is_behind);
        if let Some(part) = culprit {
            return self.escaped(part).or_else(|| self.lacks(part));
        }
        if !self.is_open() {
            return None;
        }
        let closing = if self.trace.stage == Stage::Preamble {
            "`\"}`"
        } else {
            "`}`"
        };
        Some(format!("its closing {closing} is missing"))
    }

    fn lacks(&self, part: &Part) -> Hint {
        let place = self.lines.place(part.span.start);
        Some(match part.form {
            Form::Quoted => {
                format!("the quotation mark opened at {place} may lack its closing one")
            }
            _ => format!("the brace opened at {place} may lack its `}}`"),
        })
    }

    /// A backslash before the brace that should close the value: the end of a Windows path.
    fn escaped(&self, part: &Part) -> Hint {
        let text = self.trace.text(&part.span);
        let delimiter = if part.form == Form::Quoted {
            b'"'
        } else {
            b'}'
        };
        let is_end = |three: &[u8]| {
            three[0] == b'\\' && three[1] == delimiter && matches!(three[2], b',' | b'\r' | b'\n')
        };
        let place = text.windows(3).position(is_end)?;
        let place = self.lines.place(part.span.start + place);
        let delimiter = delimiter as char;
        Some(format!(
            "the backslash at {place} keeps the `{delimiter}` behind it from closing the value: write `/` for it, or a blank behind it"
        ))
    }

    fn opening(&self) -> Hint {
        if self.next() == Some(b'(') {
            return some(
                "BibTeX also takes ( and ) as delimiters, but this reader does not: write { and }",
            );
        }
        if self.trace.is("comment") && self.trace.stage == Stage::Opening {
            return some("BibTeX takes an @comment without braces, but this reader does not: write @comment{..}");
        }
        let line = self.lines.at(self.trace.at);
        let before = &line.text[..self.trace.at.saturating_sub(line.begin)];
        let is_prose = !matches!(without_blanks(before).last(), None | Some(b'}'));
        if is_prose {
            return some("outside entries an \"@\" begins an entry, in running text too: put the text behind a \"%\"");
        }
        self.no_opening()
    }

    /// `@article a14,` or `@ article{a14,`: what it should have been.
    fn no_opening(&self) -> Hint {
        if self.trace.stage == Stage::Type {
            let mut cursor = Cursor::new(self.file, self.trace.at + 1..self.file.len());
            cursor.white();
            return match self.next()? {
                b'@' => some("there is an \"@\" too many"),
                _ if self.place < cursor.place && cursor.ident().is_some() => {
                    some("no blank stands between the \"@\" and the type")
                }
                _ => None,
            };
        }
        let head = head_at(self.file, self.trace.at..self.file.len())?;
        let key = quoted(&self.file[head.key?]);
        let (kind, _) = divided(self.trace.text(&self.trace.kind));
        Some(format!(
            "a brace is missing behind the type: write `@{}{{{key},`",
            quoted(kind)
        ))
    }

    fn preamble(&self) -> Hint {
        match (self.trace.stage, self.next()) {
            (Stage::Preamble, Some(b'{')) => {
                some("BibTeX also takes a preamble in braces, but this reader does not: write @preamble{\"..\"}")
            }
            (Stage::Closing, Some(b'#')) => some(
                "BibTeX joins strings by # here, but this reader does not: write one string, or another @preamble",
            ),
            _ => None,
        }
    }

    fn key_comma(&self) -> Hint {
        let key = self.trace.key.as_ref()?;
        let shown = quoted(self.trace.text(key));
        if self.next() == Some(b'}') && shown.contains('{') {
            return some("a key stands without braces around it, or in it");
        }
        if let Some(shown) = shown.strip_suffix(';') {
            return Some(format!(
                "a comma stands behind a key, and no semicolon: write `{shown},`"
            ));
        }
        if self.next() == Some(b'}') {
            return Some(format!(
                "BibTeX takes an entry without fields so, but this reader wants a comma: write `{{{shown},}}`"
            ));
        }
        if self
            .next()
            .is_some_and(|byte| byte.is_ascii_control() && !byte.is_ascii_whitespace())
        {
            return some("a key has no control characters in it");
        }
        if self.is_on_later_line(key.end) || self.is_field_next() {
            return Some(format!("a comma is missing behind the key {shown}"));
        }
        (key.end < self.place).then(|| format!("a key has no blanks in it: it ends behind {shown}"))
    }

    fn field_name(&self) -> Hint {
        match self.next()? {
            b'%' => some("one comment may stand here, and this reader refuses a second in a row: make one of them"),
            b'@' => self.not_closed_before(),
            b',' => some("there is a comma too many"),
            b'=' => some("the field has no name"),
            b'"' | b'{' => {
                let part = self.trace.part.as_ref()?;
                self.names_apart(part.form)
            }
            _ => None,
        }
    }

    fn not_closed_before(&self) -> Hint {
        let line = self.lines.number(self.trace.at);
        let subject = subject(self.trace);
        Some(format!(
            "{subject} (line {line}) is not closed before this \"@\""
        ))
    }

    fn equals(&self) -> Hint {
        let name = quoted(self.trace.text(self.trace.field.as_ref()?));
        match self.next()? {
            b'{' | b'"' => Some(format!("an equals sign is missing behind `{name}`")),
            _ if self.is_field_next() && !self.is_on_later_line(self.trace.field.as_ref()?.end) => {
                some("the name of a field has no blanks in it")
            }
            _ => self
                .closed_early()
                .or_else(|| Some(format!("the field `{name}` has no value"))),
        }
    }

    /// What stands here may be the rest of the value before.
    fn closed_early(&self) -> Hint {
        let part = self.trace.part.as_ref()?;
        let what = match part.form {
            Form::Braced => "brace",
            Form::Quoted => "quotation mark",
            Form::Number | Form::Name => return None,
        };
        let end = self.lines.place(part.span.end - 1);
        Some(format!(
            "if this belongs to the value before, the {what} at {end} closed it too early"
        ))
    }

    fn value(&self) -> Hint {
        if self.reason == Reason::UnexpectedDecimalPoint {
            return self.in_braces(self.trace.part.as_ref()?);
        }
        let name = quoted(self.trace.text(self.trace.field.as_ref()?));
        match self.next()? {
            b',' | b'}' => Some(format!(
                "the field `{name}` has no value: write `{name} = {{}}`, or take it out"
            )),
            _ => some("a value stands in braces or quotation marks, or is one number or one name"),
        }
    }

    fn value_end(&self) -> Hint {
        let part = self.trace.part.as_ref()?;
        let text = self.trace.text(&part.span);
        if part.form == Form::Name && is_typographic(text) {
            return some(TYPOGRAPHIC);
        }
        if self.is_at_sign() {
            return self.not_closed_before();
        }
        if part.form == Form::Quoted && is_open_brace_in(text) {
            return some(
                "BibTeX takes a quotation mark inside braces inside quotation marks, but this reader ends the value there: write the value in braces",
            );
        }
        if matches!(part.form, Form::Quoted | Form::Braced) {
            if let Some(hint) = self.names_apart(part.form) {
                return Some(hint);
            }
        }
        let field = quoted(self.trace.text(self.trace.field.as_ref()?));
        if self.is_other_mark() {
            let mark = self.next()? as char;
            return Some(format!(
                "a comma stands behind the value of `{field}`, and no `{mark}`"
            ));
        }
        if self.is_on_later_line(part.span.end) || self.is_field_next() {
            return Some(format!("a comma is missing behind the value of `{field}`"));
        }
        match part.form {
            Form::Number | Form::Name => self.in_braces(part),
            Form::Quoted => {
                some("a quotation mark inside the value ends it: write the value in braces")
            }
            Form::Braced => self.closed_early(),
        }
    }

    /// A value that is not one number or one name, as it should have been written.
    fn in_braces(&self, part: &Part) -> Hint {
        let rest = &self.file[part.span.start..];
        let is_end = |byte: &u8| matches!(byte, b',' | b'}' | b'\n' | b'\r');
        let value = &rest[..rest.iter().position(is_end).unwrap_or(rest.len())];
        let value = quoted(without_blanks(value));
        Some(format!(
            "a value that is not one number or one name stands in braces: write {{{value}}}"
        ))
    }
}

/// Whether braces are open where a quoted value ends.
fn is_open_brace_in(text: &[u8]) -> bool {
    let count = |brace: u8| text.iter().filter(|byte| **byte == brace).count();
    count(b'{') > count(b'}')
}
