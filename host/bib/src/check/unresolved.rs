//! Values that cannot be resolved, and which of them are said.

use std::borrow::Cow;
use std::collections::{HashSet, TryReserveError};
use std::ops::Range;

use crate::{
    is_verbatim_field, verbatim_flags, Kind, Lent, Reason, Refusal, ResolvedFile, Rows,
    ENGLISH_MONTHS,
};

/// A value that cannot be resolved. A file may have four million of them, so that it is small.
#[derive(Debug, Clone, Copy, PartialEq, Eq)]
pub struct Unresolved {
    value: u32,
    reason: Reason,
    start: u32,
    end: u32,
}

impl Unresolved {
    /// The number of the value's row.
    pub fn value(&self) -> usize {
        self.value as usize
    }

    pub fn refusal(&self) -> Refusal {
        Refusal {
            reason: self.reason,
            start: self.start as usize,
            end: self.end as usize,
        }
    }

    /// All of a file, in the order of its rows.
    pub fn all(rows: &Rows, resolved: &ResolvedFile) -> Result<Vec<Self>, Refusal> {
        let mut all = Vec::new();
        all.try_reserve_exact(resolved.iter().filter(Result::is_err).count())?;
        let values = (0..).zip(rows.iter());
        let values = values.filter(|(_, row)| row.kind == Kind::Value);
        for ((value, _), answer) in values.zip(resolved.iter()) {
            if let Err(refusal) = answer {
                all.push(Self {
                    value,
                    reason: refusal.reason,
                    start: refusal.start as u32,
                    end: refusal.end as u32,
                });
            }
        }
        Ok(all)
    }
}

/// All values of a file resolved: the English months are known, the fields of the Rust's list are
/// verbatim, and damaged pieces count as blanks, so that one author's bytes which are not UTF-8 do
/// not keep another's field from being resolved. Other files may lend definitions.
pub(crate) fn resolve(
    limit: u64,
    lent: Option<&Lent>,
    file: &[u8],
    rows: &Rows,
) -> Result<ResolvedFile, Refusal> {
    let flags = verbatim_flags(file, rows, is_verbatim_field)?;
    let file = without_damage(file, rows)?;
    match lent {
        None => crate::resolve_file_within(limit, &file, rows, &flags, &ENGLISH_MONTHS),
        Some(lent) => crate::resolve_file_lent(limit, lent, &file, rows, &flags, &ENGLISH_MONTHS),
    }
}

/// The file with blanks for its damaged pieces, by the rows of salvage: all places stay, so that what was
/// read can be resolved by the same rows.
pub fn without_damage<'a>(file: &'a [u8], rows: &Rows) -> Result<Cow<'a, [u8]>, TryReserveError> {
    let damage = || rows.iter().filter(|row| row.kind == Kind::Damage);
    if damage().next().is_none() {
        return Ok(Cow::Borrowed(file));
    }
    let mut copy = Vec::new();
    copy.try_reserve_exact(file.len())?;
    copy.extend_from_slice(file);
    for piece in damage() {
        copy[piece.span()].fill(b' ');
    }
    Ok(Cow::Owned(copy))
}

/// A refusal inside a definition is that of the definition, and of every value that uses it: it is said
/// once.
pub(crate) struct Once<'a> {
    rows: &'a Rows,
    all: &'a [Unresolved],
    /// Places in definitions that can be resolved by themselves: their uses cannot.
    elsewhere: HashSet<u32>,
}

impl<'a> Once<'a> {
    pub fn of(rows: &'a Rows, all: &'a [Unresolved]) -> Self {
        Self {
            rows,
            all,
            elsewhere: HashSet::new(),
        }
    }

    /// Whether this one is to be said. They are asked for in the order of their rows.
    pub fn is_new(&mut self, one: &Unresolved) -> Result<bool, TryReserveError> {
        if self.is_own(one, one.start) {
            return Ok(true);
        }
        let after = self
            .all
            .partition_point(|other| self.span(other).start <= one.start as usize);
        let owner = after.checked_sub(1).map(|before| self.all[before]);
        let is_said = |owner: &Unresolved| {
            self.is_own(owner, one.start) && (owner.reason, owner.start) == (one.reason, one.start)
        };
        if owner.as_ref().is_some_and(is_said) {
            return Ok(false);
        }
        self.elsewhere.try_reserve(1)?;
        Ok(self.elsewhere.insert(one.start))
    }

    fn span(&self, one: &Unresolved) -> Range<usize> {
        let row = self.rows.get(one.value());
        row.map_or(0..0, |row| row.span())
    }

    /// Whether a place is in the value itself, its end included.
    fn is_own(&self, one: &Unresolved, place: u32) -> bool {
        let span = self.span(one);
        (span.start..=span.end).contains(&(place as usize))
    }
}
