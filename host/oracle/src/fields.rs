//! Fields resolved by the Rust's `parse_field`, with the definitions and the months that are lent.
//!
//! The Rust has no rows and no limits, and does not end where a name means itself. So a walk over the
//! field, written from 01's "From file to field", "Numbers a caller can get" and "Resolving and
//! writing", goes first. It counts the names and finds what the Rust does not refuse: a literal's 1,
//! 13, 14 and 15. Only where it finds none of them before what the Rust refuses is the Rust asked, and
//! then the Rust's answer counts. The 14 of a literal must be told: `told_too_deep`.

use std::collections::HashMap;

use crate::literals::{
    chunks_of, field_name, laid, refusal, Resolved, LEAST_SCRATCH, LONGEST_LITERAL,
};
use crate::raw::{Field, RawChunk};
use crate::resolve::parse_field;
use crate::rows::text_of;
use crate::types::{kept, with_months, Months};
use crate::{Refusal, Span, Spanned};

/// How many names may be open at once, and how many a field may resolve.
pub const DEEPEST_NAME: usize = 32;
pub const MOST_NAMES: u64 = 4_096;

/// The kinds of rows by which this file tells.
const FIELD: u32 = 4;
const VALUE: u32 = 5;
const LITERAL: u32 = 6;
const NAME: u32 = 7;
const DEFINITION: u32 = 8;
const CAUSE: u32 = 10;

/// What is lent to be read: a file with its rows, and month words, four numbers each, with the bytes
/// that they are of.
#[derive(Clone, Copy)]
pub struct Given<'a> {
    pub file: &'a [u8],
    pub rows: &'a [u32],
    pub months: &'a [u32],
    pub words: &'a [u8],
}

/// The fields of what is lent; or why there are none, whichever is chosen.
pub struct Fields<'a>(Result<Sound<'a>, Refusal>);

/// What is lent, if nothing but the choice can be wrong with it.
struct Sound<'a> {
    /// The elements of the value in each row that is a value's.
    values: HashMap<usize, Field<'a>>,
    /// For each name the row of its last definition's value.
    definitions: HashMap<&'a str, usize>,
    months: Months,
    /// A literal that 01 refuses with 14, and at which byte of it.
    too_deep: Option<(&'a str, usize)>,
}

impl<'a> Fields<'a> {
    pub fn new(given: Given<'a>) -> Self {
        Self(Sound::new(given))
    }

    /// Tells of a literal that 01 refuses with 14, at this byte of it, where it is not verbatim.
    pub fn told_too_deep(mut self, literal: &'a str, brace: usize) -> Self {
        if let Ok(sound) = &mut self.0 {
            sound.too_deep = Some((literal, brace));
        }
        self
    }

    /// Resolves the value whose row has this number, with so much scratch.
    pub fn resolve(
        &self,
        which: usize,
        is_verbatim: bool,
        scratch: usize,
    ) -> Result<Resolved, Refusal> {
        let sound = self.0.as_ref().map_err(|refusal| *refusal)?;
        let field = sound.values.get(&which).ok_or(Refusal::new(17, 0..0))?;
        if scratch < LEAST_SCRATCH {
            return Err(Refusal::new(16, 0..0));
        }
        sound.resolve(field, is_verbatim, &sound.definitions())
    }

    /// Resolves every value in the order of the rows, with a flag for each, which is not 0 where its
    /// field is verbatim, and so much scratch; or why none is.
    pub fn resolve_all(
        &self,
        flags: &[u8],
        scratch: usize,
    ) -> Result<Vec<Result<Resolved, Refusal>>, Refusal> {
        let sound = self.0.as_ref().map_err(|refusal| *refusal)?;
        let mut rows: Vec<&usize> = sound.values.keys().collect();
        rows.sort();
        if flags.len() < rows.len() {
            return Err(Refusal::new(17, 0..0));
        }
        if scratch < LEAST_SCRATCH {
            return Err(Refusal::new(16, 0..0));
        }
        let definitions = sound.definitions();
        let value = |(row, flag): (&usize, &u8)| {
            sound.resolve(&sound.values[row], *flag != 0, &definitions)
        };
        Ok(rows.into_iter().zip(flags).map(value).collect())
    }
}

/// The value of each name, as `parse_field` is lent them.
type Definitions<'d> = HashMap<&'d str, &'d Field<'d>>;

impl<'a> Sound<'a> {
    fn new(given: Given<'a>) -> Result<Self, Refusal> {
        let text = text_of(given.file)?;
        Self::of_text(text, given).ok_or(Refusal::new(17, 0..0))
    }

    /// Nothing where the rows or the months are not as 01's "Rows and their packing" has them.
    fn of_text(text: &'a str, given: Given<'a>) -> Option<Self> {
        let rows = given.rows.chunks_exact(4);
        if !rows.remainder().is_empty() || !is_sequence(given.rows) {
            return None;
        }
        let (mut values, mut definitions) = (HashMap::new(), HashMap::new());
        let (mut value, mut name) = (0, None);
        for (number, row) in rows.enumerate() {
            // Just the places that are reversed, outside or across a character `get` gives no text for.
            let span = row[2] as usize..row[3] as usize;
            let part = text.get(span.clone())?;
            let mut add = |chunk| {
                let field: &mut Field = values.entry(value).or_default();
                field.push(Spanned::new(chunk, span.clone()));
            };
            match row[0] {
                FIELD => name = None,
                DEFINITION => name = Some(part),
                VALUE => {
                    value = number;
                    if let Some(name) = name {
                        definitions.insert(name, number);
                    }
                }
                LITERAL => add(RawChunk::Normal(part)),
                NAME => add(RawChunk::Abbreviation(part)),
                _ => {}
            }
        }
        Some(Self {
            values,
            definitions,
            months: months(given)?,
            too_deep: None,
        })
    }

    fn definitions(&self) -> Definitions<'_> {
        let value = |(name, row): (&&'a str, &usize)| (*name, &self.values[row]);
        self.definitions.iter().map(value).collect()
    }

    fn resolve(
        &self,
        field: &Field,
        is_verbatim: bool,
        definitions: &Definitions,
    ) -> Result<Resolved, Refusal> {
        let mut walk = Walk {
            sound: self,
            is_verbatim,
            open: Vec::new(),
            names: 0,
        };
        let walked = walk.field(field);
        if let Err(Stop::Added(refusal)) = walked {
            return Err(refusal);
        }
        let name = field_name(is_verbatim);
        let chunks = with_months(&self.months, || parse_field(name, field, definitions));
        let answer = chunks.map(|chunks| laid(&chunks)).map_err(refusal);
        match (&answer, &walked) {
            (Ok(_), Ok(())) => {}
            (Err(rusts), Err(Stop::Rusts(walks))) if rusts == walks => {}
            _ => panic!(
                "the Rust's answer is {answer:?}, but the walk over the field ends with {walked:?}"
            ),
        }
        answer.map(|resolved| Resolved {
            names: walk.names,
            ..resolved
        })
    }
}

/// Month words with their texts, unless a range is reversed, outside or not UTF-8, or the numbers
/// are no whole count of words.
fn months(given: Given) -> Option<Months> {
    let words = given.months.chunks_exact(4);
    if !words.remainder().is_empty() {
        return None;
    }
    let part = |from: u32, to: u32| {
        let bytes = given.words.get(from as usize..to as usize)?;
        std::str::from_utf8(bytes).ok()
    };
    let month = |month: &[u32]| {
        let word = part(month[0], month[1])?;
        Some((word.to_string(), kept(part(month[2], month[3])?)))
    };
    words.map(month).collect()
}

/// Whether whole rows are a sequence of 01's, with its details.
fn is_sequence(rows: &[u32]) -> bool {
    let kinds: Vec<u32> = rows.chunks_exact(4).map(|row| row[0]).collect();
    let detail = |row: &[u32]| match row[0] {
        CAUSE => (2..=10).contains(&row[1]),
        _ => row[1] == 0,
    };
    let mut rest = &kinds[..];
    while !rest.is_empty() {
        match item(rest) {
            Some(behind) => rest = behind,
            None => return false,
        }
    }
    rows.chunks_exact(4).all(detail)
}

/// What stands behind the item that stands in front: a preamble, an entry, a definition or damage.
fn item(kinds: &[u32]) -> Option<&[u32]> {
    match kinds {
        [0, rest @ ..] | [9, 10, rest @ ..] => Some(rest),
        [DEFINITION, rest @ ..] => value(rest),
        [1, 2, 3, rest @ ..] => {
            let mut rest = rest;
            while let [FIELD, behind @ ..] = rest {
                rest = value(behind)?;
            }
            Some(rest)
        }
        _ => None,
    }
}

/// What stands behind the value that stands in front, with at least one element.
fn value(kinds: &[u32]) -> Option<&[u32]> {
    let [VALUE, LITERAL | NAME, rest @ ..] = kinds else {
        return None;
    };
    let is_element = |kind: &&u32| matches!(**kind, LITERAL | NAME);
    Some(&rest[rest.iter().take_while(is_element).count()..])
}

/// Why a walk ends before the field does.
#[derive(Debug)]
enum Stop {
    /// By what the Rust does not refuse.
    Added(Refusal),
    /// By what it refuses too.
    Rusts(Refusal),
}

/// A walk over a field from left to right.
struct Walk<'a, 's> {
    sound: &'a Sound<'s>,
    is_verbatim: bool,
    /// The values of the names that are being resolved.
    open: Vec<usize>,
    names: u64,
}

impl Walk<'_, '_> {
    fn field(&mut self, field: &Field) -> Result<(), Stop> {
        for element in field {
            match element.v {
                RawChunk::Normal(literal) => self.literal(literal, element.span.clone())?,
                RawChunk::Abbreviation(name) => self.name(name, element.span.clone())?,
            }
        }
        Ok(())
    }

    fn literal(&self, literal: &str, span: Span) -> Result<(), Stop> {
        if literal.len() > LONGEST_LITERAL {
            return Err(Stop::Added(Refusal::new(1, span)));
        }
        match self.sound.too_deep {
            Some((deep, brace)) if deep == literal && !self.is_verbatim => {
                let brace = span.start + brace;
                return Err(Stop::Added(Refusal::new(14, brace..brace + 1)));
            }
            _ => {}
        }
        let chunks = chunks_of(literal, span.start, self.is_verbatim);
        chunks.map(drop).map_err(Stop::Rusts)
    }

    /// 01: "At one use: 12, 13, 14, 15."
    fn name(&mut self, name: &str, span: Span) -> Result<(), Stop> {
        let value = self.sound.definitions.get(name);
        let is_month = || self.sound.months.iter().any(|(word, _)| word == name);
        if value.is_none() && !is_month() {
            return Err(Stop::Rusts(Refusal::new(12, span)));
        }
        let added = |number| Err(Stop::Added(Refusal::new(number, span)));
        if value.is_some_and(|value| self.open.contains(value)) {
            return added(13);
        }
        if self.open.len() == DEEPEST_NAME {
            return added(14);
        }
        if self.names == MOST_NAMES {
            return added(15);
        }
        self.names += 1;
        if let Some(value) = value {
            self.open.push(*value);
            self.field(&self.sound.values[value])?;
            self.open.pop();
        }
        Ok(())
    }
}
