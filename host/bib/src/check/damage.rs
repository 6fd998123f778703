//! What is said of a damaged piece. Number and place are the proved reader's; the words and the
//! mark are for people.

use super::entries::is_odd;
use super::finding::{Code, Finding};
use super::heads::{head_at, Heads};
use super::items::Item;
use super::text::{key_name, quoted};
use super::trace::{Part, Stage, Trace};
use super::{Checker, Lines, Stop};
use crate::{Reason, Refusal, Row};

impl<E, S: FnMut(&Finding, &Lines) -> Result<(), E>> Checker<'_, S> {
    pub(crate) fn damage(&mut self, item: &Item) -> Result<(), Stop<E>> {
        let mut rows = item.rows.clone().map_while(|row| self.rows.get(row));
        let (Some(piece), Some(cause)) = (rows.next(), rows.next()) else {
            return Ok(());
        };
        let at = if self.encoding.explains(cause) {
            self.not_utf8(piece, cause)?
        } else {
            self.refused(piece, cause)?
        };
        self.lost_with_it(piece, cause, at)
    }

    /// Says what is refused in a piece, and answers where the entry begins that it is in.
    fn refused(&mut self, piece: Row, cause: Row) -> Result<usize, Stop<E>> {
        let trace = Trace::of(self.file, piece.span());
        let story = Story {
            file: self.file,
            trace: &trace,
            lines: self.lines()?,
            reason: reason_of(cause),
            place: cause.start,
            is_end: cause.start == piece.end,
        };
        // Words that were found on another way than the reader's would mislead.
        let is_known = trace.place() == cause.start;
        let found = is_known.then(|| (story.mark(), story.message(), story.hint()));
        let plain = || (cause.start, story.reason.what().to_string(), None);
        let (mark, message, hint) = found.unwrap_or_else(plain);
        let key = key_of(&trace).or_else(|| {
            let head = head_at(self.file, trace.at..piece.end)?;
            head.key.map(|key| &self.file[key])
        });
        let finding = Finding {
            code: Code::Refusal(story.reason),
            start: cause.start,
            end: cause.end,
            mark,
            message,
            hint,
            key: key.filter(|_| is_known).map(key_name),
        };
        let finding = match self.format.take() {
            Some(format) => finding.with_hint(Some(format.hint())),
            None => finding,
        };
        self.say(finding)?;
        Ok(trace.at)
    }

    /// Counts the entries of a damaged piece, and names those that the damage is not in: they are lost as
    /// well. The one that begins at this place has been named.
    fn lost_with_it(&mut self, piece: Row, cause: Row, named: usize) -> Result<(), Stop<E>> {
        if self.encoding.is_utf16() {
            return self.lost_in_utf16(piece, cause, named);
        }
        let mut hint = Some(OWN_LINE.to_string());
        for head in Heads::of(self.file, piece.span()) {
            self.damaged += 1;
            if head.at != named {
                let key = head.key.map(|key| &self.file[key]);
                let finding = self.lost_entry(head.at, key, cause)?;
                self.say(finding.with_hint(hint.take()))?;
            }
        }
        Ok(())
    }

    /// The same where a zero stands between the characters: the entries are found without these. Where none
    /// does, in a part of the file, the first was named.
    fn lost_in_utf16(&mut self, piece: Row, cause: Row, named: usize) -> Result<(), Stop<E>> {
        let mut text = Vec::new();
        text.try_reserve_exact(piece.end - piece.start)?;
        let bytes = piece.span().filter(|place| self.file[*place] != 0);
        text.extend(bytes.clone().map(|place| self.file[place]));
        let (mut places, mut passed) = (bytes, 0);
        for head in Heads::of(&text, 0..text.len()) {
            self.damaged += 1;
            let at = places.nth(head.at - passed).unwrap_or(piece.start);
            passed = head.at + 1;
            if at == named && self.file.get(at + 1) != Some(&0) {
                continue;
            }
            let key = head.key.map(|key| &text[key]);
            let finding = self.lost_entry(at, key, cause)?;
            self.say(finding)?;
        }
        Ok(())
    }

    /// What is said of an entry that is lost with the damage of its piece.
    fn lost_entry(&self, at: usize, key: Option<&[u8]>, cause: Row) -> Result<Finding, Refusal> {
        let subject = key.map_or("the entry".into(), |key| ["entry ", &quoted(key)].concat());
        let (place, reason) = (self.lines()?.place(cause.start), reason_of(cause));
        let what = reason.what();
        Ok(Finding {
            code: Code::Refusal(reason),
            start: at,
            end: at + 1,
            mark: at,
            message: format!("{subject} is lost with the damage at {place}: {what}"),
            hint: None,
            key: key.map(key_name),
        })
    }
}

/// What keeps an entry from the damage of another.
const OWN_LINE: &str =
    "damage reaches to the next \"@\" that begins a line: put no blanks and no other entry before this one";

/// Why a piece is damaged.
pub(crate) fn reason_of(cause: Row) -> Reason {
    Reason::of(cause.detail).expect("a cause has a refusal's number")
}

/// What is known of a refusal in a damaged piece.
pub(crate) struct Story<'a> {
    pub file: &'a [u8],
    pub trace: &'a Trace<'a>,
    pub lines: &'a Lines<'a>,
    pub reason: Reason,
    pub place: usize,
    /// The refusal is where the piece ends.
    pub is_end: bool,
}

impl Story<'_> {
    /// Whether the piece ends inside an entry, or what else begins with an "@".
    pub fn is_open(&self) -> bool {
        self.is_end && is_inside(self.trace.stage)
    }

    /// The value that took in what it should not: one that is not closed, or was closed too late.
    pub fn culprit(&self) -> Option<&Part> {
        let open = self.trace.part.as_ref().filter(|part| !part.is_closed);
        open.or(self.trace.late.as_ref())
    }

    /// Whether a line ends between a place and the refusal.
    pub fn is_on_later_line(&self, place: usize) -> bool {
        self.lines.number(place) < self.lines.number(self.place)
    }

    fn mark(&self) -> usize {
        if self.is_open() {
            return self.culprit().map_or(self.trace.at, |part| part.span.start);
        }
        let missing_after = match self.trace.stage {
            Stage::Opening => Some(self.trace.kind.end),
            Stage::KeyComma => self.trace.key.as_ref().map(|key| key.end),
            Stage::ValueEnd => self.trace.part.as_ref().map(|part| part.span.end),
            _ => None,
        };
        // A brace or a comma is missing on the line that should have had it, not on the next one.
        let place = missing_after.filter(|end| self.is_on_later_line(*end) && !self.is_at_sign());
        place.unwrap_or(self.place)
    }

    /// Whether the piece goes on with an "@".
    pub fn is_at_sign(&self) -> bool {
        self.trace.next_byte() == Some(b'@')
    }

    fn message(&self) -> String {
        if self.is_open() {
            let line = self.lines.number(self.trace.at);
            return format!("{} (line {line}) is not closed", subject(self.trace));
        }
        let what = self.reason.what_at(self.is_end);
        what.to_string() + &whose(self.trace, self.lines, self.mark())
    }
}

/// Whether reading is behind an opening delimiter.
fn is_inside(stage: Stage) -> bool {
    !matches!(stage, Stage::Outside | Stage::Type | Stage::Opening)
}

/// What a damaged piece is called.
pub(crate) fn subject(trace: &Trace) -> String {
    for other in ["string", "preamble", "comment"] {
        if trace.is(other) {
            return format!("@{other}");
        }
    }
    key_of(trace).map_or("the entry".into(), |key| ["entry ", &quoted(key)].concat())
}

/// Of what it is, where that is known: `, in entry knuth84 (line 1)`.
pub(crate) fn whose(trace: &Trace, lines: &Lines, mark: usize) -> String {
    if !is_inside(trace.stage) {
        return String::new();
    }
    in_subject(&subject(trace), lines, trace.at, mark)
}

/// In what it is: the line on which that begins is said where the mark is on another.
pub(crate) fn in_subject(subject: &str, lines: &Lines, at: usize, mark: usize) -> String {
    let line = lines.number(at);
    if line == lines.number(mark) {
        [", in ", subject].concat()
    } else {
        format!(", in {subject} (line {line})")
    }
}

/// The key, if there is one: what stands in its place may be a field.
pub(crate) fn key_of<'a>(trace: &Trace<'a>) -> Option<&'a [u8]> {
    let key = trace.text(trace.key.as_ref()?);
    let is_key = !key.is_empty() && !is_odd(key);
    let is_field = trace.stage == Stage::KeyComma && trace.next_byte() == Some(b'=');
    (is_key && !is_field).then_some(key)
}
