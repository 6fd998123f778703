//! How much text the values of a file come to, before they are resolved. Names multiply: a few lines can
//! define a text of 16 KB and use it a million times. So there is a limit for a file, and the values that
//! would pass it are not resolved.

use std::collections::HashMap;
use std::ops::Range;

use crate::row::NUMBERS;
use crate::{Kind, Refusal, Row, Rows};

/// So many bytes the values of a file come to at most, unless something else is asked for. It is twice what
/// the longest file has, so that one without names is always within it; more may take a gigabyte of memory,
/// as a byte of text may be a chunk.
pub const USUAL_LIMIT: u64 = 32_000_000;

/// What a name counts for, beside its text.
const NAME: u64 = 4;

/// Arguments of commands that stand so deep in each other make a text count twice: each is read once more
/// for every one around it.
const DEEP: u64 = 8;

/// Arguments that stand deeper in each other are refused.
const MOST_DEEP: u64 = 64;

/// A value with more names is refused, so that no more of them are resolved.
const MOST_NAMES: u64 = 4_096;

/// The values that would pass the limit, by their rows, in the order of these. Definitions are counted
/// first, each behind those that it uses, and then the fields in file order; a value that uses one beyond the
/// limit is beyond it too.
pub(crate) fn beyond(file: &[u8], rows: &Rows, limit: u64) -> Result<Vec<u32>, Refusal> {
    if is_surely_within(file, rows, limit) {
        return Ok(Vec::new());
    }
    let mut counting = Counting::of(file, rows, limit)?;
    for definition in 0..counting.definitions.len() {
        counting.count(definition)?;
    }
    let mut is_definition = false;
    for (index, row) in rows.iter().enumerate() {
        match row.kind {
            Kind::DefinitionName => is_definition = true,
            Kind::FieldName => is_definition = false,
            Kind::Value if !is_definition => {
                let size = counting.size(index, length);
                counting.take(index, size)?;
            }
            _ => {}
        }
    }
    counting.beyond.sort_unstable();
    Ok(counting.beyond)
}

/// Whether even the longest definition in place of each name keeps to the limit, and no definition uses
/// another. Nearly every file is so, and needs no more than a look at its rows.
fn is_surely_within(file: &[u8], rows: &Rows, limit: u64) -> bool {
    let (mut literals, mut names, mut longest, mut current) = (0u64, 0u64, 0u64, 0u64);
    let mut is_definition = false;
    for row in rows.iter() {
        match row.kind {
            Kind::DefinitionName | Kind::FieldName => {
                is_definition = row.kind == Kind::DefinitionName;
                current = 0;
            }
            Kind::Literal if is_definition => {
                current += weight(file, row);
                longest = longest.max(current);
                literals += weight(file, row);
            }
            Kind::Literal => literals += length(file, row),
            Kind::Name if is_definition => return false,
            Kind::Name => names += 1,
            _ => {}
        }
    }
    names
        .saturating_mul(longest + NAME)
        .saturating_add(literals)
        <= limit
}

/// What a value comes to.
#[derive(Debug, Clone, Copy, Default)]
struct Size {
    bytes: u64,
    names: u64,
    /// It uses a definition that is beyond the limit.
    is_beyond: bool,
}

/// A definition: the row of its value, and what it comes to once that is known.
struct Definition {
    value: usize,
    size: Option<Size>,
    is_begun: bool,
}

struct Counting<'a> {
    file: &'a [u8],
    rows: &'a Rows,
    definitions: Vec<Definition>,
    /// The last definition of each name.
    last: HashMap<&'a [u8], u32>,
    /// The longest literal of a definition.
    longest: u64,
    /// What is left of the limit.
    left: u64,
    beyond: Vec<u32>,
}

impl<'a> Counting<'a> {
    fn of(file: &'a [u8], rows: &'a Rows, limit: u64) -> Result<Self, Refusal> {
        let mut counting = Self {
            file,
            rows,
            definitions: Vec::new(),
            last: HashMap::new(),
            longest: 0,
            left: limit,
            beyond: Vec::new(),
        };
        for (index, row) in rows.iter().enumerate() {
            if row.kind == Kind::DefinitionName {
                counting.last.try_reserve(1)?;
                counting.definitions.try_reserve(1)?;
                let number = counting.definitions.len() as u32;
                counting.last.insert(&file[row.span()], number);
                counting.definitions.push(Definition {
                    value: index + 1,
                    size: None,
                    is_begun: false,
                });
                let parts = counting.parts(index + 1);
                let longest = parts.map(|part| weight(file, part)).max();
                counting.longest = counting.longest.max(longest.unwrap_or(0));
            }
        }
        Ok(counting)
    }

    /// The parts of the value that has this row.
    fn parts(&self, value: usize) -> impl Iterator<Item = Row> + 'a {
        let rows = self.rows;
        let parts = (value + 1..).map_while(move |row| rows.get(row));
        parts.take_while(|row| matches!(row.kind, Kind::Literal | Kind::Name))
    }

    fn definition_of(&self, name: Row) -> Option<usize> {
        let number = self.last.get(&self.file[name.span()])?;
        Some(*number as usize)
    }

    /// Counts a definition behind those that it uses. One that leads back to itself is refused in
    /// resolving, wherever that is seen first.
    fn count(&mut self, definition: usize) -> Result<(), Refusal> {
        let mut open = vec![definition];
        while let Some(&last) = open.last() {
            let is_begun = std::mem::replace(&mut self.definitions[last].is_begun, true);
            let before = open.len();
            if !is_begun {
                for name in self.parts(self.definitions[last].value) {
                    let used = (name.kind == Kind::Name).then(|| self.definition_of(name));
                    let used = used
                        .flatten()
                        .filter(|used| !self.definitions[*used].is_begun);
                    if let Some(used) = used {
                        open.try_reserve(1)?;
                        open.push(used);
                    }
                }
            }
            if open.len() == before {
                open.pop();
                self.close(last)?;
            }
        }
        Ok(())
    }

    /// What a definition comes to is known.
    fn close(&mut self, definition: usize) -> Result<(), Refusal> {
        if self.definitions[definition].size.is_some() {
            return Ok(());
        }
        let value = self.definitions[definition].value;
        let mut size = self.size(value, weight);
        size.is_beyond = self.take(value, size)?;
        self.definitions[definition].size = Some(size);
        Ok(())
    }

    /// What a value comes to, at most, where each of its own literals counts for so much.
    fn size(&self, value: usize, each: fn(&[u8], Row) -> u64) -> Size {
        let (mut own, mut size) = (0, Size::default());
        for part in self.parts(value) {
            if part.kind == Kind::Literal {
                own += each(self.file, part);
                continue;
            }
            size.names += 1;
            let used = self.definition_of(part);
            if let Some(used) = used.and_then(|used| self.definitions[used].size) {
                size.bytes = size.bytes.saturating_add(used.bytes);
                size.names = size.names.saturating_add(used.names);
                size.is_beyond |= used.is_beyond;
            }
        }
        if size.names > MOST_NAMES {
            size.names = MOST_NAMES + 1;
            size.bytes = size.bytes.min(size.names * self.longest);
        }
        size.bytes = size.bytes.saturating_add(own);
        size
    }

    /// Takes a value off the limit; whether it is beyond that.
    fn take(&mut self, value: usize, size: Size) -> Result<bool, Refusal> {
        let whole = size.bytes.saturating_add(NAME * size.names);
        let is_beyond = size.is_beyond || whole > self.left;
        if is_beyond {
            self.beyond.try_reserve(1)?;
            self.beyond.push(value as u32);
        } else {
            self.left -= whole;
        }
        Ok(is_beyond)
    }
}

/// What a literal of a field counts for: it is resolved once.
fn length(_: &[u8], literal: Row) -> u64 {
    (literal.end - literal.start) as u64
}

/// What a literal of a definition counts for: its bytes, and more where it is nested deeply.
fn weight(file: &[u8], literal: Row) -> u64 {
    let text = &file[literal.span()];
    let (mut depth, mut deepest) = (0u64, 0);
    for byte in text {
        match byte {
            b'{' => depth += 1,
            b'}' => depth = depth.saturating_sub(1),
            _ => {}
        }
        deepest = depth.max(deepest);
    }
    text.len() as u64 * (1 + deepest.min(MOST_DEEP) / DEEP)
}

/// The rows with an empty literal for each of these values, so that nothing is resolved for them.
pub(crate) fn without(rows: &Rows, beyond: &[u32]) -> Result<Vec<u32>, Refusal> {
    let mut numbers = Vec::new();
    numbers.try_reserve_exact(rows.numbers().len())?;
    let all = rows.numbers();
    let mut place = 0;
    for value in beyond.iter().map(|value| *value as usize) {
        let Range { start, end } = parts_of(rows, value);
        numbers.extend_from_slice(&all[place * NUMBERS..start * NUMBERS]);
        let at = rows.get(value).map_or(0, |row| row.start as u32);
        numbers.extend([Kind::Literal.number(), 0, at, at]);
        place = end;
    }
    numbers.extend_from_slice(&all[place * NUMBERS..]);
    Ok(numbers)
}

/// The rows of a value's parts.
fn parts_of(rows: &Rows, value: usize) -> Range<usize> {
    let parts = (value + 1..).map_while(|row| rows.get(row));
    let parts = parts.take_while(|row| matches!(row.kind, Kind::Literal | Kind::Name));
    value + 1..value + 1 + parts.count()
}
