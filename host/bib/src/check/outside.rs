//! What is wrong outside entries, and in files without any.

use std::ops::Range;

use super::encoding::Format;
use super::finding::{Finding, Lint};
use super::items::{Item, What};
use super::lines::BYTE_ORDER_MARK;
use super::text::{entries_outside, fields_outside, is_conflict, key_name, quoted, Lost, CONFLICT};
use super::{Checker, Lines, Stop};

impl<E, S: FnMut(&Finding, &Lines) -> Result<(), E>> Checker<'_, S> {
    /// Text that belongs to nothing, behind an item of this kind. Comments in it are left out.
    pub(crate) fn outside(&mut self, item: &Item, before: Option<What>) -> Result<(), Stop<E>> {
        let mut place = item.span.start;
        if place == 0 && self.file.starts_with(BYTE_ORDER_MARK) {
            place += BYTE_ORDER_MARK.len();
        }
        let mut behind = Behind::of(&self.file[place..item.span.end], before);
        while place < item.span.end {
            let text = &self.file[place..item.span.end];
            let comment = text.iter().position(|byte| *byte == b'%');
            let text = &text[..comment.unwrap_or(text.len())];
            self.lost(text, place, &mut behind)?;
            self.conflicts(text, place)?;
            place += text.len();
            let rest = &self.file[place..item.span.end];
            let line = rest.iter().position(|byte| *byte == b'\n');
            place += line.unwrap_or(rest.len());
        }
        Ok(())
    }

    /// The fields and the entries that are lost in this text. Fields behind the beginning of an entry are
    /// that entry's.
    fn lost(&mut self, text: &[u8], place: usize, behind: &mut Behind) -> Result<(), Stop<E>> {
        let mut entries = entries_outside(text).peekable();
        let first = entries.peek().map_or(text.len(), |entry| entry.span.start);
        if let Some(finding) = behind.lost_fields(&text[..first], place) {
            let key = self.last_key().filter(|_| self.is_of_entry);
            self.say(finding.with_key(key))?;
        }
        self.is_of_entry = false;
        for Lost { span, key } in entries {
            let shown = quoted(&text[span.clone()]);
            let message = format!("`{shown}` without an \"@\": the entry is lost");
            let (start, end) = (place + span.start, place + span.end);
            let finding = Finding::lint(Lint::EntryOutside, start, end, message);
            self.say(finding.with_key(Some(key_name(&text[key]))))?;
        }
        Ok(())
    }

    /// Lines that a merge left before the first of two versions; or behind the second, where someone has
    /// taken out the others.
    pub(crate) fn conflicts(&mut self, text: &[u8], mut place: usize) -> Result<(), Stop<E>> {
        for line in text.split_inclusive(|byte| *byte == b'\n') {
            let is_whole = place == 0 || self.file[place - 1] == b'\n';
            if is_whole && is_conflict(line.trim_ascii_end()) && line[0] != b'=' {
                let is_begin = line.starts_with(b"<");
                if is_begin || !self.is_in_conflict {
                    let message = "two versions that a merge left".to_string();
                    let finding = Finding::lint(Lint::MergeConflict, place, place + 7, message);
                    self.say(finding.with_hint(Some(CONFLICT.into())))?;
                }
                // What stands between two versions has the mark of the first before it.
                self.is_in_conflict = !line.starts_with(b">");
            }
            place += line.len();
        }
        Ok(())
    }

    /// The key of the entry that was gone over last.
    fn last_key(&self) -> Option<String> {
        let key = self.last_key.as_ref()?;
        Some(key_name(&self.file[key.clone()]))
    }

    pub(crate) fn no_entries(&mut self) -> Result<(), Stop<E>> {
        let first = self
            .file
            .iter()
            .position(|byte| !byte.is_ascii_whitespace());
        let Some(first) = first.filter(|_| !self.has_said && self.file != BYTE_ORDER_MARK) else {
            return Ok(());
        };
        let message = "no entries in this file".to_string();
        let finding = Finding::lint(Lint::NoEntries, first, self.file.len(), message);
        let hint = self
            .format
            .map(Format::hint)
            .or_else(|| self.comment_without_end());
        self.say(finding.with_hint(hint))
    }

    /// Lines that end in CR alone do not end a comment.
    fn comment_without_end(&self) -> Option<String> {
        let has = |byte: u8| self.file.contains(&byte);
        (has(b'%') && has(b'\r') && !has(b'\n')).then(|| {
            "its lines end in CR alone, so that the first \"%\" makes a comment of all that follows: \
             try `tr '\\r' '\\n'`"
                .into()
        })
    }

    /// An "@" that begins a line inside an item: strict reading takes it, salvage would cut there.
    pub(crate) fn cuts(&mut self, item: &Item) -> Result<(), Stop<E>> {
        if matches!(item.what, What::Outside | What::Damage) {
            return Ok(());
        }
        let text = &self.file[item.span.clone()];
        let found = text.windows(2).position(|pair| pair == b"\n@");
        let Some(found) = found else {
            return Ok(());
        };
        let place = item.span.start + found + 1;
        let key = self.rows.get(item.rows.start + 2);
        if item.what == What::Entry && key.is_some_and(|key| key.start == place) {
            // The next entry was taken for the key, which is said of the key.
            return Ok(());
        }
        let (what, hint) = match item.what {
            What::Comment => ("a comment", COMMENT),
            What::Definitions => ("an @string", VALUE),
            What::Preamble => ("a preamble", VALUE),
            _ => ("an entry", VALUE),
        };
        let message = format!("an \"@\" begins a line inside {what}: salvage would cut there");
        let finding = Finding::lint(Lint::CutInside, place, place + 1, message);
        self.say(finding.with_hint(Some(hint.into())))
    }
}

/// What to do about an "@" that begins a line inside a comment, or a value.
const COMMENT: &str =
    "the comment goes on to its first \"}\": if an entry begins here, close it before";
const VALUE: &str = "put a blank before it, so that damage elsewhere in the file does not reach it";

/// So many fields are named that are lost with the first.
const MOST_NAMED: usize = 8;

/// What text outside every entry stands behind. Fields in it were lost where they follow at once; prose has
/// fields too, and so have patterns of entries, which mostly stand behind a comment of their own.
struct Behind {
    before: Option<What>,
    /// Nothing but lost fields came so far.
    follows: bool,
    /// A comma stands behind the entry: it was surely to go on.
    goes_on: bool,
}

impl Behind {
    fn of(text: &[u8], before: Option<What>) -> Self {
        Self {
            before,
            // What an `@comment` leaves behind its first brace was to be left out.
            follows: before != Some(What::Comment),
            goes_on: before == Some(What::Entry) && text.trim_ascii_start().starts_with(b","),
        }
    }

    /// The fields that are lost in this text, which ends with a comment or at the next item.
    fn lost_fields(&mut self, text: &[u8], place: usize) -> Option<Finding> {
        let mut names = fields_outside(text).peekable();
        let first = names.peek().map_or(text.len(), |first| first.start);
        let is_between = |byte: &u8| byte.is_ascii_whitespace() || b",;.}".contains(byte);
        self.follows &= text[..first].iter().all(is_between);
        let found = names
            .peek()
            .is_some()
            .then(|| lost_fields(text, place, names));
        let found = found.filter(|_| self.follows);
        // One field alone may be meant for a program, as `encoding = "utf-8"` is for R.
        let is_entry = self.before == Some(What::Entry);
        let found = found.filter(|(_, count)| is_entry || *count > 1);
        let line = text.rsplit(|byte| *byte == b'\n').next().unwrap_or(text);
        let is_own_line =
            line.trim_ascii().is_empty() && (line.len() < text.len() || self.before.is_none());
        self.follows &= found.is_some() || self.goes_on || !is_own_line;
        let hint = "the entry before it may have been closed too early";
        found.map(|(finding, _)| finding.with_hint(is_entry.then(|| hint.into())))
    }
}

/// What is said of the fields of these names, which are lost in this text, and how many they are.
fn lost_fields(
    text: &[u8],
    place: usize,
    mut names: impl Iterator<Item = Range<usize>>,
) -> (Finding, usize) {
    let first = names.next().unwrap_or(0..0);
    let name = |span: Range<usize>| ["`", &quoted(&text[span]), "`"].concat();
    let mut message = format!(
        "the field {} is outside every entry, and lost",
        name(first.clone())
    );
    let others: Vec<String> = names.by_ref().take(MOST_NAMED).map(name).collect();
    let more = names.count();
    match others.len() {
        0 => {}
        1 => message += &format!("; so is {}", others[0]),
        _ => message += &format!("; so are {}", others.join(", ")),
    }
    if more > 0 {
        message += &format!(" and {more} more");
    }
    let (start, end) = (place + first.start, place + first.end);
    let finding = Finding::lint(Lint::FieldOutside, start, end, message);
    (finding, 1 + others.len() + more)
}
