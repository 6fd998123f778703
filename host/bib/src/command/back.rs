//! What `bib write` wrote, read back by the library itself. It writes as the Rust does, and not all that is
//! written so comes back: a field that does not is changed for whoever reads it.

use std::ops::Range;

use bib::{is_verbatim_field, Reason, Refusal, ResolvedValue};

use crate::resolve::CHUNK;

/// So many bytes are read back at once: each reading takes some memory, however short it is.
const MANY: usize = 1 << 18;

/// What stands around the fields, so that they are an entry to the reader.
const HEAD: &[u8] = b"@a{k,\n";
const TAIL: &[u8] = b"}";

/// Fields that were written and not yet read back.
pub struct Back<'a, M> {
    text: Vec<u8>,
    fields: Vec<Written<'a, M>>,
}

/// A field that was written: what its value was, where it stands in the text, and whatever the caller wants
/// to know of it later.
struct Written<'a, M> {
    value: ResolvedValue<'a>,
    name: Range<usize>,
    text: Range<usize>,
    mark: M,
}

/// A field that does not come back.
pub struct Changed<M> {
    pub mark: M,
    pub why: String,
}

impl<'a, M: Copy> Back<'a, M> {
    pub fn new() -> Self {
        Self {
            text: HEAD.to_vec(),
            fields: Vec::new(),
        }
    }

    /// Takes a field as it was written.
    pub fn add(
        &mut self,
        name: &[u8],
        text: &str,
        value: ResolvedValue<'a>,
        mark: M,
    ) -> Result<(), Refusal> {
        self.text.try_reserve(name.len() + text.len() + 8)?;
        self.fields.try_reserve(1)?;
        let name = self.put(name);
        self.put(b" = ");
        let text = self.put(text.as_bytes());
        self.put(b",\n");
        self.fields.push(Written {
            value,
            name,
            text,
            mark,
        });
        Ok(())
    }

    fn put(&mut self, part: &[u8]) -> Range<usize> {
        let start = self.text.len();
        self.text.extend_from_slice(part);
        start..self.text.len()
    }

    /// Whether there is so much that it should be read back.
    pub fn is_full(&self) -> bool {
        self.text.len() > MANY
    }

    /// Reads all back, and answers which fields do not come back.
    pub fn read(&mut self) -> Result<Vec<Changed<M>>, Refusal> {
        self.text.extend_from_slice(TAIL);
        let changed = match self.together()? {
            Some(changed) => changed,
            None => self.one_by_one()?,
        };
        self.text.truncate(HEAD.len());
        self.fields.clear();
        Ok(changed)
    }

    /// All at once; nothing where what was written is not read as so many fields.
    fn together(&self) -> Result<Option<Vec<Changed<M>>>, Refusal> {
        let Ok(rows) = bib::read(&self.text) else {
            return Ok(None);
        };
        let flags = bib::verbatim_flags(&self.text, &rows, is_verbatim_field)?;
        let back = bib::resolve_file(&self.text, rows.numbers(), &flags, &[])?;
        if back.len() != self.fields.len() {
            return Ok(None);
        }
        let mut changed = Vec::new();
        for (field, back) in self.fields.iter().zip(back.iter()) {
            changed.extend(field.changed(back)?);
        }
        Ok(Some(changed))
    }

    fn one_by_one(&self) -> Result<Vec<Changed<M>>, Refusal> {
        let mut changed = Vec::new();
        for field in &self.fields {
            let (name, text) = (field.name.clone(), field.text.clone());
            let alone = [HEAD, &self.text[name], b"=", &self.text[text], TAIL].concat();
            let read = bib::read(&alone).and_then(|rows| {
                let flags = bib::verbatim_flags(&alone, &rows, is_verbatim_field)?;
                bib::resolve_file(&alone, rows.numbers(), &flags, &[])
            });
            let found = match &read {
                Ok(back) => back.iter().next().map(|back| field.changed(back)),
                Err(refusal) => Some(field.changed(Err(*refusal))),
            };
            changed.extend(found.transpose()?.flatten());
        }
        Ok(changed)
    }
}

impl<M: Copy> Written<'_, M> {
    /// How the field is changed, if it is.
    fn changed(&self, back: Result<ResolvedValue, Refusal>) -> Result<Option<Changed<M>>, Refusal> {
        let why = match back {
            Err(refusal) => {
                let what = match refusal.reason {
                    // Its place is the end of what was written.
                    Reason::UnexpectedEof => refusal.reason.what_at(true),
                    _ => refusal.what(),
                };
                format!("it is refused where it is read again: {what}")
            }
            Ok(back) if same(self.value, back) => return Ok(None),
            Ok(back) => {
                let [before, after] = [self.value, back]
                    .map(|value| bib::format_verbatim(value.text.as_bytes(), value.rows));
                why(&before?, &after?)
            }
        };
        Ok(Some(Changed {
            mark: self.mark,
            why,
        }))
    }
}

/// Whether two values have the same text in the same kinds of chunks; empty chunks count for nothing.
fn same(one: ResolvedValue, other: ResolvedValue) -> bool {
    one.text == other.text && kinds(one).eq(kinds(other))
}

/// The bytes of a value, each with the kind of its chunk.
fn kinds(value: ResolvedValue<'_>) -> impl Iterator<Item = (u32, u8)> + '_ {
    value.rows.chunks_exact(CHUNK).flat_map(move |row| {
        let text = &value.text.as_bytes()[row[1] as usize..row[2] as usize];
        text.iter().map(|byte| (row[0], *byte))
    })
}

/// What becomes of a text, and why, as far as that is known.
fn why(before: &str, after: &str) -> String {
    if before == after {
        return "its braces are read otherwise".into();
    }
    let same = before.char_indices().zip(after.chars());
    let same = same.take_while(|((_, one), other)| one == other);
    let place = same
        .last()
        .map_or(0, |((place, c), _)| place + c.len_utf8());
    let (left, right) = (around(before, place), around(after, place));
    let reason = match before[place..].chars().next() {
        Some('~') => ", since `~` is written as `\\~`",
        Some('^') => ", since `^` is written as `\\^`",
        Some('-') => ", since hyphens that follow each other are read as a dash",
        Some(' ') => ", since blanks that follow each other are read as one",
        _ => "",
    };
    format!("`{left}` becomes `{right}`{reason}")
}

/// So many characters are shown before and behind the place where two texts begin to differ.
const AROUND: usize = 20;

fn around(text: &str, place: usize) -> String {
    let (before, after) = text.split_at(place.min(text.len()));
    let left: Vec<char> = before.chars().rev().take(AROUND + 1).collect();
    let right: Vec<char> = after.chars().take(AROUND + 1).collect();
    let cut = |part: &[char]| if part.len() > AROUND { "…" } else { "" };
    let few = |part: &[char]| part.iter().take(AROUND).copied().collect::<Vec<char>>();
    let mut shown = cut(&left).to_string();
    shown.extend(few(&left).iter().rev());
    shown.extend(few(&right));
    shown + cut(&right)
}

#[cfg(test)]
mod tests {
    use super::*;

    #[test]
    fn reasons() {
        let tilde =
            "`Avril~J. Smith` becomes `AvrilJ\u{303}. Smith`, since `~` is written as `\\~`";
        assert_eq!(why("Avril~J. Smith", "AvrilJ\u{303}. Smith"), tilde);
        let dash = "`a--b` becomes `a–b`, since hyphens that follow each other are read as a dash";
        assert_eq!(why("a--b", "a–b"), dash);
        let blank = ", since blanks that follow each other are read as one";
        assert!(why("\\em  x", "\\em x").ends_with(blank));
        assert_eq!(why("a", "a"), "its braces are read otherwise");
        let long = format!("{}~{}", "x".repeat(50), "y".repeat(50));
        let shown = format!("`…{}~{}…` becomes", "x".repeat(20), "y".repeat(19));
        assert!(why(&long, &long.replace('~', "")).starts_with(&shown));
    }
}
