//! Fields that name other entries by their keys.

use std::cmp::Ordering;
use std::ops::Range;

use super::finding::{Finding, Lint};
use super::heads::Heads;
use super::text::{key_name, quoted};
use crate::memory::push;
use crate::{Kind, Refusal, Rows};

/// A key that a field names.
#[derive(Debug, Clone, PartialEq, Eq)]
pub struct Reference {
    /// The number of its entry among those that were read, and the bytes of that entry's key.
    pub entry: usize,
    pub owner: Range<usize>,
    /// The bytes of the field's name.
    pub field: Range<usize>,
    /// The bytes of the key.
    pub key: Range<usize>,
}

impl Reference {
    /// That no entry has this key.
    pub fn finding(&self, file: &[u8]) -> Finding {
        let finding = unknown_key(file, &file[self.field.clone()], self.key.clone());
        finding.with_key(Some(key_name(&file[self.owner.clone()])))
    }
}

/// That no entry has the key that a field names.
pub(crate) fn unknown_key(file: &[u8], field: &[u8], key: Range<usize>) -> Finding {
    let shown = quoted(&file[key.clone()]);
    let message = format!(
        "no entry has the key {shown}, which `{}` names",
        quoted(field)
    );
    let hint = "if it is in another file, check both together";
    let finding = Finding::lint(Lint::UnknownCrossref, key.start, key.end, message);
    finding.with_hint(Some(hint.into()))
}

/// All keys that `crossref`, `xref` and `xdata` name, in file order.
pub fn references<'a>(file: &'a [u8], rows: &'a Rows) -> impl Iterator<Item = Reference> + 'a {
    named(file, rows, is_reference)
}

/// Whether a field names other entries.
pub(crate) fn is_reference(field: &[u8]) -> bool {
    let is = |name: &&str| field.eq_ignore_ascii_case(name.as_bytes());
    ["crossref", "xref", "xdata"].iter().any(is)
}

/// The other keys of an entry.
fn is_alias(field: &[u8]) -> bool {
    field.eq_ignore_ascii_case(b"ids")
}

/// The keys in the fields of which this is so.
fn named<'a>(
    file: &'a [u8],
    rows: &'a Rows,
    is_wanted: fn(&[u8]) -> bool,
) -> impl Iterator<Item = Reference> + 'a {
    let mut entries = 0;
    let mut owner = 0..0;
    let fields = rows.iter().enumerate().filter_map(move |(index, row)| {
        match row.kind {
            Kind::Entry => entries += 1,
            Kind::Key => owner = row.span(),
            Kind::FieldName if is_wanted(&file[row.span()]) => {
                return Some((index, row.span(), entries - 1, owner.clone()));
            }
            _ => {}
        }
        None
    });
    fields.flat_map(move |(index, field, entry, owner)| {
        // A value's row comes between a name's and those of its parts.
        let part = rows
            .get(index + 2)
            .filter(|part| part.kind == Kind::Literal);
        let part = part.filter(|_| is_alone(rows, index + 2));
        let keys = keys_in(file, part.map_or(0..0, |part| part.span()));
        keys.map(move |key| Reference {
            entry,
            owner: owner.clone(),
            field: field.clone(),
            key,
        })
    })
}

/// Whether a part of a value is the whole value.
pub(crate) fn is_alone(rows: &Rows, index: usize) -> bool {
    let is_part = |index: usize| {
        let row = rows.get(index);
        row.is_some_and(|row| matches!(row.kind, Kind::Literal | Kind::Name))
    };
    !is_part(index.wrapping_sub(1)) && !is_part(index + 1)
}

/// The keys in a value, between commas.
pub(crate) fn keys_in(file: &[u8], value: Range<usize>) -> impl Iterator<Item = Range<usize>> + '_ {
    let mut place = value.start;
    let parts = file[value].split(|byte| *byte == b',');
    parts.filter_map(move |part| {
        let start = place + part.len() - part.trim_ascii_start().len();
        place += part.len() + 1;
        let key = start..start + part.trim_ascii().len();
        (!key.is_empty()).then_some(key)
    })
}

/// The keys of a file: of the entries that were read and of the damaged ones, and what `ids` adds.
pub struct Keys<'a> {
    file: &'a [u8],
    spans: Vec<(u32, u32)>,
}

/// The keys of a file besides those of the entries that were read: of the damaged ones, and what `ids` adds.
pub fn other_keys<'a>(file: &'a [u8], rows: &'a Rows) -> impl Iterator<Item = Range<usize>> + 'a {
    let damaged = rows.iter().filter(|row| row.kind == Kind::Damage);
    let heads = damaged.flat_map(|row| Heads::of(file, row.span()));
    let ids = named(file, rows, is_alias).map(|other| other.key);
    heads.filter_map(|head| head.key).chain(ids)
}

impl<'a> Keys<'a> {
    pub fn of(file: &'a [u8], rows: &Rows) -> Result<Self, Refusal> {
        let mut spans = Vec::new();
        let keys = rows.iter().filter(|row| row.kind == Kind::Key);
        for key in keys.map(|row| row.span()).chain(other_keys(file, rows)) {
            push(&mut spans, (key.start as u32, key.end as u32))?;
        }
        spans.sort_unstable_by(|a, b| by_letters(text(file, a), text(file, b)));
        Ok(Self { file, spans })
    }

    /// Whether there is this key, in small or large letters, as BibTeX looks for it.
    pub fn has(&self, key: &[u8]) -> bool {
        let order = |span: &(u32, u32)| by_letters(text(self.file, span), key);
        self.spans.binary_search_by(order).is_ok()
    }
}

fn text<'a>(file: &'a [u8], span: &(u32, u32)) -> &'a [u8] {
    &file[span.0 as usize..span.1 as usize]
}

/// Compares keys without regard to the case of ASCII letters.
pub(crate) fn by_letters(a: &[u8], b: &[u8]) -> Ordering {
    let small = |byte: &u8| byte.to_ascii_lowercase();
    a.iter().map(small).cmp(b.iter().map(small))
}
