//! Why a value cannot be resolved, in words for the author of a file. Number and place are the proved
//! library's; the words and the mark are for people.

use std::cell::RefCell;
use std::cmp::Ordering;
use std::collections::HashMap;

use super::cursor::Cursor;
use super::damage::in_subject;
use super::finding::{Code, Finding};
use super::items::{Item, What};
use super::text::{is_typographic, key_name, quoted, TYPOGRAPHIC};
use super::unresolved::Unresolved;
use super::{Lines, Places, Reading};
use crate::memory::push;
use crate::{is_verbatim_field, Kind, Lending, LentPlace, Reason, Refusal, Row, Rows, LENT};

/// Says why values of a file cannot be resolved.
pub struct Explainer<'a> {
    own: Ground<'a>,
    /// The definitions that other files lend, and to which file.
    lent: Option<(Ground<'a>, Lending<'a>)>,
    /// Where the first damaged piece begins that begins with `@string`.
    damaged: Option<usize>,
    /// What was said of places in definitions, where it took long to find: any number of values may use
    /// one, of verbatim fields and of others.
    said: RefCell<HashMap<(u32, Reason, bool), Words>>,
}

/// A text with its rows: the file, or the definitions that it is lent.
struct Ground<'a> {
    text: &'a [u8],
    rows: &'a Rows,
    /// The rows of the definitions' names, in the order of these in small letters.
    names: Vec<u32>,
    /// What its first place is called: [`LENT`] in definitions that are lent.
    first: usize,
}

/// What is said of a refusal in whatever value it shows.
#[derive(Clone)]
struct Words {
    mark: usize,
    what: String,
    hint: String,
}

/// So many bytes are looked at over and over.
const SHORT: usize = 64;

impl<'a> Explainer<'a> {
    pub fn of(file: &'a [u8], reading: &'a Reading<'a>) -> Result<Self, Refusal> {
        let rows = &reading.rows;
        let lent = reading.lending.map(|lending| {
            let Lending { lent, .. } = lending;
            Ground::of(lent.text(), lent.rows(), LENT).map(|ground| (ground, lending))
        });
        let damaged = rows.iter().find(|row| is_damaged_string(file, *row));
        Ok(Self {
            own: Ground::of(file, rows, 0)?,
            lent: lent.transpose()?,
            damaged: damaged.map(|row| row.start),
            said: RefCell::default(),
        })
    }

    /// Whether definitions may be lost in a damaged piece.
    pub(crate) fn has_damaged_definitions(&self) -> bool {
        let lent = self.lent.as_ref();
        self.damaged.is_some() || lent.is_some_and(|(_, lending)| lending.lent.damaged().is_some())
    }

    /// The text that a place is in.
    fn ground(&self, place: usize) -> &Ground<'a> {
        let lent = self.lent.as_ref().filter(|_| place >= LENT);
        lent.map_or(&self.own, |(ground, _)| ground)
    }

    /// What is said of a value of this item, which cannot be resolved, and the lines of the file that it
    /// is said of: where a lent definition is at fault, that is the file which lends it.
    pub fn finding<'p>(
        &self,
        one: &Unresolved,
        item: &Item,
        places: &'p Places<'a>,
    ) -> Result<(Finding, &'p Lines<'a>), Refusal> {
        places.settle(self.finding_of(one, item, places, 0)?)
    }

    /// The same, where so many more names have no definition, with places as resolving has them.
    pub(crate) fn finding_of(
        &self,
        one: &Unresolved,
        item: &Item,
        places: &Places,
        more: usize,
    ) -> Result<Finding, Refusal> {
        let refusal = one.refusal();
        let Words { mark, what, hint } = self.words(one, places)?;
        let (key, whose) = self.whose(one, item);
        let mut message = what;
        let lines = places.lines()?;
        message += &match &self.lent {
            Some((_, lending)) if mark >= LENT => {
                let line = lines.number(item.span.start);
                format!(", in {whose} ({}, line {line})", lending.to)
            }
            _ => in_subject(&whose, lines, item.span.start, mark),
        };
        match more {
            0 => {}
            1 => message += ", and one more use of such a name",
            _ => message += &format!(", and {more} more uses of such names"),
        }
        Ok(Finding {
            code: Code::Refusal(refusal.reason),
            start: refusal.start,
            end: refusal.end,
            mark,
            message,
            hint: Some(hint),
            key,
        })
    }

    /// What is said of a refusal. A file may have millions of values that use one definition; what is said
    /// of that is found once, where more than a few bytes are looked at for it.
    fn words(&self, one: &Unresolved, places: &Places) -> Result<Words, Refusal> {
        let Refusal { reason, start, end } = one.refusal();
        let is_short =
            || end - start <= SHORT && self.ground(start).literal_before(start).len() <= SHORT;
        if self.is_own(one) || is_short() {
            return self.new_words(one, places);
        }
        let place = (start as u32, reason, self.is_verbatim(one));
        if let Some(words) = self.said.borrow().get(&place) {
            return Ok(words.clone());
        }
        let words = self.new_words(one, places)?;
        let mut said = self.said.borrow_mut();
        if said.try_reserve(1).is_ok() {
            said.insert(place, words.clone());
        }
        Ok(words)
    }

    fn new_words(&self, one: &Unresolved, places: &Places) -> Result<Words, Refusal> {
        let refusal = one.refusal();
        let mut what = match refusal.reason {
            // Its place is the end of a literal, or of a command's argument.
            Reason::UnexpectedEof => refusal.reason.what_at(true),
            _ => refusal.what(),
        }
        .to_string();
        match refusal.reason {
            Reason::UnknownAbbreviation | Reason::Cyclic => {
                let ground = self.ground(refusal.start);
                what.extend([": `", &quoted(ground.used(refusal)), "`"]);
            }
            Reason::NoRoom => what = self.beyond_limit(one),
            _ => {}
        }
        let formula = self.ground(refusal.start).open_formula(refusal);
        Ok(Words {
            mark: formula.unwrap_or(refusal.start),
            what,
            hint: self.hint(one, places)?,
        })
    }

    /// Of a value that would pass the limit its field or its definition is named.
    fn beyond_limit(&self, one: &Unresolved) -> String {
        let name = self.own.rows.get(one.value().wrapping_sub(1));
        let name = name.map_or(String::new(), |row| quoted(self.own.of_row(row)));
        format!("with `{name}` resolved, the file would pass its limit")
    }

    /// Whether a refusal is in the value itself, its end included.
    fn is_own(&self, one: &Unresolved) -> bool {
        let value = self.own.rows.get(one.value());
        let value = value.map_or(0..0, |row| row.span());
        (value.start..=value.end).contains(&one.refusal().start)
    }

    /// Whether the value is of a verbatim field.
    fn is_verbatim(&self, one: &Unresolved) -> bool {
        let field = self.own.rows.get(one.value().wrapping_sub(1));
        field.is_some_and(|row| is_verbatim_field(self.own.of_row(row)))
    }

    /// The key of the entry that has a value, and what the value is called: where the refusal is in a
    /// definition, the field that uses it.
    fn whose(&self, one: &Unresolved, item: &Item) -> (Option<String>, String) {
        let text = |row: Row| self.own.of_row(row);
        let key = self.own.rows.get(item.rows.start + 2);
        let key = key.filter(|row| row.kind == Kind::Key && row.start < row.end);
        let key = key.map(text);
        let owner = match (item.what, key) {
            (What::Definitions, _) => "@string".to_string(),
            (_, Some(key)) => ["entry ", &quoted(key)].concat(),
            _ => "the entry".to_string(),
        };
        let key = key.map(key_name);
        if self.is_own(one) {
            return (key, owner);
        }
        let name = self.own.rows.get(one.value().wrapping_sub(1));
        let name = name.map_or(String::new(), |row| quoted(text(row)));
        (key, ["`", &name, "` of ", &owner].concat())
    }

    /// What can be done.
    fn hint(&self, one: &Unresolved, places: &Places) -> Result<String, Refusal> {
        let refusal = one.refusal();
        let ground = self.ground(refusal.start);
        let is_argument = ground.text.get(refusal.start - ground.first) == Some(&b'{');
        if ground.is_escaped(refusal) {
            return Ok("the value has escape sequences: the file may be ISO-2022-JP".into());
        }
        let hint = match refusal.reason {
            Reason::UnknownAbbreviation => {
                return self.definition_hint(ground.used(refusal), places)
            }
            Reason::Cyclic => {
                "a definition must not lead back to its own name: write its text in braces".into()
            }
            Reason::UnexpectedClosingBrace => self.brace_hint(one),
            Reason::TooDeep if is_argument => {
                "arguments of commands stand at most 64 deep in each other".into()
            }
            Reason::TooDeep => {
                "at most 32 definitions may lead from one to the next: write the text itself".into()
            }
            Reason::TooManyNames => {
                "those of its definitions count too: write the text itself for some".into()
            }
            Reason::NoRoom => {
                "it uses names that stand for long texts too often: write the text itself, or set --limit"
                    .into()
            }
            Reason::TooLong => "join it of shorter ones by #: {..} # {..}".into(),
            _ => return self.end_hint(refusal, places),
        };
        Ok(hint)
    }

    fn definition_hint(&self, name: &[u8], places: &Places) -> Result<String, Refusal> {
        if is_typographic(name) {
            return Ok(TYPOGRAPHIC.into());
        }
        let lent = self.lent.iter().map(|(ground, _)| ground);
        let mut grounds = [&self.own].into_iter().chain(lent);
        if let Some((place, other)) = grounds.find_map(|ground| ground.in_other_letters(name)) {
            let (place, text) = (places.place(place)?, quoted(other));
            return Ok(format!(
                "BibTeX takes it for `{text}`, defined at {place}, but here small and large letters make \
                 different names"
            ));
        }
        if let Some(line) = self.damaged_line(places)? {
            return Ok(format!(
                "@string ({line}) is damaged, and may have defined it: mend that first"
            ));
        }
        let name = quoted(name);
        let (braced, defined) = (
            "put a text into braces: {",
            "}; or define the name in this file: @string{",
        );
        Ok([braced, &name, defined, &name, " = {..}}"].concat())
    }

    /// The line of the first `@string` that is damaged, and whose file it is, where that is not this one.
    fn damaged_line(&self, places: &Places) -> Result<Option<String>, Refusal> {
        if let Some(place) = self.damaged {
            return Ok(Some(format!("line {}", places.lines()?.number(place))));
        }
        let Some(Lending { lent, .. }) = self.lent.as_ref().map(|(_, lending)| lending) else {
            return Ok(None);
        };
        let Some(LentPlace { lender, place }) = lent.damaged() else {
            return Ok(None);
        };
        let line = places.lines_of(lender)?.number(place);
        Ok(Some(format!("{}, line {line}", lent.lender(lender).0)))
    }

    fn brace_hint(&self, one: &Unresolved) -> String {
        let place = one.refusal().start;
        let before = self.ground(place).literal_before(place);
        // A verbatim field has no formulas.
        if before.contains(&b'$') && !self.is_verbatim(one) {
            return "a brace that is opened between two `$` must be closed between them".into();
        }
        "take it out, or write \\} where a brace is meant".into()
    }

    fn end_hint(&self, refusal: Refusal, places: &Places) -> Result<String, Refusal> {
        let formula = self.ground(refusal.start).open_formula(refusal);
        let Some(formula) = formula else {
            return Ok(
                "in the argument of a command a brace counts even behind a backslash".into(),
            );
        };
        // It is in the file that the finding is about.
        let (place, lines) = places.at(formula)?;
        Ok(format!(
            "the `$` at {} begins a formula that does not end: write \\$ where a dollar is meant",
            lines.place(place)
        ))
    }
}

impl<'a> Ground<'a> {
    fn of(text: &'a [u8], rows: &'a Rows, first: usize) -> Result<Self, Refusal> {
        let mut names = Vec::new();
        for (index, row) in rows.iter().enumerate() {
            if row.kind == Kind::DefinitionName {
                push(&mut names, index as u32)?;
            }
        }
        let name = |index: &u32| {
            let row = rows.get(*index as usize);
            row.map_or(&[][..], |row| &text[row.span()])
        };
        names.sort_unstable_by(|a, b| small(name(a), name(b)));
        Ok(Self {
            text,
            rows,
            names,
            first,
        })
    }

    fn of_row(&self, row: Row) -> &'a [u8] {
        &self.text[row.span()]
    }

    /// The name that is used where a refusal is.
    fn used(&self, refusal: Refusal) -> &'a [u8] {
        &self.text[refusal.start - self.first..refusal.end - self.first]
    }

    /// The definition of a name that differs in small and large letters alone: its place, and that name.
    fn in_other_letters(&self, name: &[u8]) -> Option<(usize, &'a [u8])> {
        let row = |index: &u32| self.rows.get(*index as usize);
        let order = |index: &u32| row(index).map(|row| small(self.of_row(row), name));
        let first = self
            .names
            .partition_point(|index| order(index) == Some(Ordering::Less));
        let found = self.names.get(first)?;
        let found = row(found).filter(|_| order(found) == Some(Ordering::Equal))?;
        Some((self.first + found.start, self.of_row(found)))
    }

    /// Whether a literal has escape sequences, in which dollars and braces mean something else.
    fn is_escaped(&self, refusal: Refusal) -> bool {
        let is_of_literal = matches!(
            refusal.reason,
            Reason::UnexpectedClosingBrace | Reason::UnexpectedEof
        );
        is_of_literal && self.literal_before(refusal.start).contains(&0x1b)
    }

    /// The literal that has a place, up to there.
    fn literal_before(&self, place: usize) -> &'a [u8] {
        let place = place - self.first;
        let mut after = self.rows.len();
        let mut first = 0;
        while first < after {
            let middle = (first + after) / 2;
            if self.rows.get(middle).is_some_and(|row| row.start <= place) {
                first = middle + 1;
            } else {
                after = middle;
            }
        }
        let before = (0..after).rev().map_while(|index| self.rows.get(index));
        let literal = before.take(2).find(|row| row.kind == Kind::Literal);
        literal.map_or(&[], |row| &self.text[row.start.min(place)..place])
    }

    /// Where a formula begins that does not end, if that is why a text ends too early.
    fn open_formula(&self, refusal: Refusal) -> Option<usize> {
        if refusal.reason != Reason::UnexpectedEof {
            return None;
        }
        let text = self.literal_before(refusal.start);
        let open = open_formula(text)?;
        Some(refusal.start - text.len() + open)
    }
}

/// The order of two names in small letters.
fn small(a: &[u8], b: &[u8]) -> Ordering {
    let small = u8::to_ascii_lowercase;
    a.iter().map(small).cmp(b.iter().map(small))
}

/// Whether a row is of a damaged piece that begins with `@string`.
pub(crate) fn is_damaged_string(file: &[u8], piece: Row) -> bool {
    if piece.kind != Kind::Damage {
        return false;
    }
    let mut cursor = Cursor::new(file, piece.span());
    cursor.eat(b'@');
    let kind = cursor.ident();
    kind.is_some_and(|kind| file[kind].eq_ignore_ascii_case(b"string"))
}

/// The `$` of a text that begins a formula which does not end.
fn open_formula(text: &[u8]) -> Option<usize> {
    let mut place = 0;
    while place < text.len() {
        match text[place] {
            b'\\' => place += 2,
            b'$' => match text[place + 1..].iter().position(|byte| *byte == b'$') {
                Some(length) => place += length + 2,
                None => return Some(place),
            },
            _ => place += 1,
        }
    }
    None
}
