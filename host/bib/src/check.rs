//! What is wrong in a file, in words for its author.
//!
//! The proved library alone judges. Errors are what it refuses: a file that strict reading accepts has
//! none in reading, of another one salvage tells the damaged pieces; and then what is refused where the
//! values that were read are resolved. Warnings are about what is read, but surely not meant.
//!
//! ```
//! let mut seen = Vec::new();
//! let file = b"@book{k, year = 1996, year = 1997}";
//! let counts = bib::check::check(file, |finding, lines| {
//!     seen.push((lines.place(finding.mark), finding.message.clone()));
//!     Ok::<(), ()>(())
//! });
//! assert_eq!(counts.unwrap().warned, 1);
//! let message = "the entry has the field `year` already, at 1:10".to_string();
//! assert_eq!(seen, [("1:23".to_string(), message)]);
//! ```

mod characters;
mod commas;
mod cursor;
mod damage;
mod encoding;
mod entities;
mod entries;
mod errors;
mod explain;
mod finding;
mod guess;
mod heads;
mod hints;
mod items;
mod lines;
mod lists;
mod misspelt;
mod model;
mod near;
mod numbers;
mod odd;
mod outside;
mod places;
mod refs;
mod scripts;
mod text;
mod trace;
mod unresolved;
mod values;

pub use errors::{AboutError, ERRORS};
pub(crate) use explain::is_damaged_string;
pub use explain::Explainer;
pub use finding::{About, Code, Finding, Level, Lint, Lints, LINTS};
pub use items::{Item, Items, What};
pub use lines::{Line, Lines};
pub use near::distance;
pub use places::Places;
pub use refs::{other_keys, references, Keys, Reference};
pub use text::key_name;
pub use unresolved::{without_damage, Unresolved};

use std::cell::OnceCell;
use std::collections::TryReserveError;
use std::ops::Range;

use crate::memory::push;
use crate::{Kind, Lending, Reason, Refusal, ResolvedFile, Rows, MOST_BYTES, USUAL_LIMIT};
use encoding::{Encoding, Format};
use entries::Repeats;
use text::field_in_value;
use values::Values;

/// How an entry stands that was read.
#[derive(Debug, Clone, Copy, PartialEq, Eq, PartialOrd, Ord)]
pub enum Standing {
    Sound,
    /// Warnings are about it, or about a field that was lost behind it.
    Warned,
    /// It has a field that cannot be resolved.
    Unresolved,
}

/// How many entries a file has: each is one of these.
#[derive(Debug, Clone, Copy, PartialEq, Eq, Default)]
pub struct Counts {
    pub sound: usize,
    pub warned: usize,
    pub unresolved: usize,
    /// Those of damaged pieces: none of them was read.
    pub damaged: usize,
}

impl Counts {
    /// Adds those of another file.
    pub fn add(&mut self, other: &Self) {
        self.sound += other.sound;
        self.warned += other.warned;
        self.unresolved += other.unresolved;
        self.damaged += other.damaged;
    }
}

/// What is known of a file that was checked.
#[derive(Debug, Clone, PartialEq, Eq, Default)]
pub struct Checked {
    /// The entries that were read, in file order.
    pub standings: Vec<Standing>,
    /// How many entries damaged pieces have.
    pub damaged: usize,
}

impl Checked {
    pub fn counts(&self) -> Counts {
        let mut counts = Counts {
            damaged: self.damaged,
            ..Counts::default()
        };
        for standing in &self.standings {
            match standing {
                Standing::Sound => counts.sound += 1,
                Standing::Warned => counts.warned += 1,
                Standing::Unresolved => counts.unresolved += 1,
            }
        }
        counts
    }
}

/// Why a file was not checked to its end.
#[derive(Debug, Clone, PartialEq, Eq)]
pub enum Stop<E> {
    /// Memory is short: refusal 16.
    Refused(Refusal),
    /// The caller's function answered this.
    Caller(E),
}

impl<E> From<Refusal> for Stop<E> {
    fn from(refusal: Refusal) -> Self {
        Self::Refused(refusal)
    }
}

impl<E> From<TryReserveError> for Stop<E> {
    fn from(error: TryReserveError) -> Self {
        Self::Refused(error.into())
    }
}

/// Hands over what is wrong in a file, piece by piece and entry by entry in file order, with the
/// lines of the file that it is in: where other files lend definitions, that may be one of them.
pub fn check<E>(
    file: &[u8],
    say: impl FnMut(&Finding, &Lines) -> Result<(), E>,
) -> Result<Counts, Stop<E>> {
    let checked = check_reading(file, &Reading::resolved(file), Lints::ALL, say)?;
    Ok(checked.counts())
}

/// The same, where the file has been read, and resolved if that is wanted. Of the lints only these are
/// said, and count.
pub fn check_reading<E>(
    file: &[u8],
    reading: &Result<Reading<'_>, Refusal>,
    lints: Lints,
    say: impl FnMut(&Finding, &Lines) -> Result<(), E>,
) -> Result<Checked, Stop<E>> {
    let reading = match reading {
        Ok(reading) => reading,
        Err(refusal) if refusal.reason == Reason::TooLong => {
            return too_long(file, say, *refusal).map_err(Stop::Caller)
        }
        Err(refusal) => return Err(Stop::Refused(*refusal)),
    };
    let rows = &reading.rows;
    let mut checker = Checker {
        file,
        rows,
        is_cut: reading.is_cut,
        values: Values::of(file, reading)?,
        keys: Repeats::of_keys(file, rows)?,
        names: Repeats::of_names(file, rows)?,
        all_keys: OnceCell::new(),
        encoding: Encoding::of(file, rows),
        format: Format::of(file),
        places: Places::of(file, reading),
        lints,
        has_said: false,
        is_of_entry: false,
        last_key: None,
        is_in_conflict: false,
        standings: Vec::new(),
        damaged: 0,
        say,
    };
    checker.whole()?;
    Ok(Checked {
        standings: checker.standings,
        damaged: checker.damaged,
    })
}

/// The keys of the entries that were read, each with its place; not empty ones.
pub fn keys<'a>(file: &'a [u8], rows: &'a Rows) -> impl Iterator<Item = (&'a [u8], usize)> + 'a {
    let keys = rows
        .iter()
        .filter(|row| row.kind == Kind::Key && row.start < row.end);
    keys.map(|row| (&file[row.span()], row.start))
}

/// A reading of a file: strict reading's rows, or those of salvage where that refuses.
pub struct Reading<'a> {
    pub rows: Rows,
    /// Strict reading accepts the file, but salvage would cut it inside an entry.
    pub is_cut: bool,
    /// The values that cannot be resolved, in the order of their rows; none before they are.
    pub unresolved: Vec<Unresolved>,
    /// The definitions that other files lend.
    pub lending: Option<Lending<'a>>,
}

impl<'a> Reading<'a> {
    /// Where salvage shows no damage, its rows are strict reading's (`undamaged` and `strictly` of
    /// crates/salvage/specs/Demand3.antt), so that such a file is read once.
    pub fn of(file: &[u8]) -> Result<Self, Refusal> {
        let rows = crate::salvage(file)?;
        let is_damaged = rows.iter().any(|row| row.kind == Kind::Damage);
        let is_cut = is_damaged && crate::accepts(file);
        if is_cut {
            drop(rows);
            return Ok(Self::new(crate::read(file)?, is_cut));
        }
        Ok(Self::new(rows, is_cut))
    }

    /// A reading of which is known what cannot be resolved.
    pub fn resolved(file: &[u8]) -> Result<Self, Refusal> {
        Self::resolved_within(USUAL_LIMIT, file)
    }

    /// The same, where all values together come to so many bytes at most.
    pub fn resolved_within(limit: u64, file: &[u8]) -> Result<Self, Refusal> {
        Self::of(file)?.with_values(limit, file)
    }

    fn with_values(mut self, limit: u64, file: &[u8]) -> Result<Self, Refusal> {
        // A file that is all damage needs no memory for it.
        if self.rows.iter().any(|row| row.kind == Kind::Value) {
            self.resolve(limit, file)?;
        }
        Ok(self)
    }

    fn new(rows: Rows, is_cut: bool) -> Self {
        Self {
            rows,
            is_cut,
            unresolved: Vec::new(),
            lending: None,
        }
    }

    /// A reading of a file that is lent definitions. Refused where both are together longer than a file
    /// may be.
    pub fn lent(file: &[u8], lending: Lending<'a>) -> Result<Self, Refusal> {
        lending.lent.fits(file)?;
        Ok(Self {
            lending: Some(lending),
            ..Self::of(file)?
        })
    }

    /// The same, of which is known what cannot be resolved.
    pub fn lent_within(limit: u64, file: &[u8], lending: Lending<'a>) -> Result<Self, Refusal> {
        Self::lent(file, lending)?.with_values(limit, file)
    }

    /// Resolves every value that was read: with the English months, and with the fields of
    /// [`is_verbatim_field`](crate::is_verbatim_field) as verbatim ones. Damaged pieces count as blanks.
    /// Values that would pass the limit, as [`resolve_file_within`](crate::resolve_file_within) counts it,
    /// are not resolved.
    pub fn resolve(&mut self, limit: u64, file: &[u8]) -> Result<ResolvedFile, Refusal> {
        let lent = self.lending.map(|lending| lending.lent);
        let resolved = unresolved::resolve(limit, lent, file, &self.rows)?;
        self.unresolved = Unresolved::all(&self.rows, &resolved)?;
        Ok(resolved)
    }
}

/// A file that is too long is not read; it has no line to show. It may be so by the definitions that it
/// is lent.
fn too_long<E>(
    file: &[u8],
    mut say: impl FnMut(&Finding, &Lines) -> Result<(), E>,
    refusal: Refusal,
) -> Result<Checked, E> {
    let (message, hint) = if file.len() > MOST_BYTES {
        (refusal.reason.what(), "split it into several files")
    } else {
        (TOO_LONG_TOGETHER, "lend it fewer definitions, or split it")
    };
    let finding = Finding {
        code: Code::Refusal(refusal.reason),
        start: refusal.start,
        end: refusal.end,
        mark: 0,
        message: message.into(),
        hint: Some(hint.into()),
        key: None,
    };
    let lines = Lines::of(b"").expect("no file has no lines but one");
    say(&finding, &lines)?;
    Ok(Checked::default())
}

/// What is said of a file that is too long by the definitions that it is lent.
pub const TOO_LONG_TOGETHER: &str =
    "the file and the definitions that it is lent are together longer than 16,777,215 bytes";

/// A file that is being checked.
pub(crate) struct Checker<'a, S> {
    file: &'a [u8],
    rows: &'a Rows,
    is_cut: bool,
    values: Values<'a>,
    keys: Repeats,
    names: Repeats,
    /// Made when the first field names a key.
    all_keys: OnceCell<Keys<'a>>,
    encoding: Encoding,
    /// What else than BibTeX the file looks like; said once.
    format: Option<Format>,
    places: Places<'a>,
    /// The lints that are wanted.
    lints: Lints,
    /// Something was said already.
    has_said: bool,
    /// What is said now is about the last entry.
    is_of_entry: bool,
    /// Its key, unless that is empty.
    last_key: Option<Range<usize>>,
    /// The first of two versions that a merge left has begun.
    is_in_conflict: bool,
    standings: Vec<Standing>,
    /// How many entries the damaged pieces have so far.
    damaged: usize,
    say: S,
}

impl<'a, E, S: FnMut(&Finding, &Lines) -> Result<(), E>> Checker<'a, S> {
    fn lines(&self) -> Result<&Lines<'a>, Refusal> {
        self.places.lines()
    }

    fn say(&mut self, finding: Finding) -> Result<(), Stop<E>> {
        if let Code::Lint(lint) = finding.code {
            if !self.lints.has(lint) {
                return Ok(());
            }
            self.stands(Standing::Warned);
        }
        self.has_said = true;
        let (finding, lines) = self.places.settle(finding)?;
        (self.say)(&finding, lines).map_err(Stop::Caller)
    }

    /// The last entry stands so at best, if it is the one that is spoken of.
    fn stands(&mut self, standing: Standing) {
        if let Some(last) = self.standings.last_mut().filter(|_| self.is_of_entry) {
            *last = standing.max(*last);
        }
    }

    fn whole(&mut self) -> Result<(), Stop<E>> {
        self.about_encoding()?;
        let mut is_empty = true;
        let mut before = None;
        for item in Items::of(self.file, self.rows) {
            is_empty &= matches!(item.what, What::Outside | What::Comment);
            self.is_of_entry = match item.what {
                What::Entry => true,
                // A field that is lost here is one of the entry before.
                What::Outside => before == Some(What::Entry),
                _ => false,
            };
            if item.what == What::Entry {
                push(&mut self.standings, Standing::Sound)?;
            }
            if self.is_cut {
                self.cuts(&item)?;
            }
            match item.what {
                What::Entry | What::Definitions => self.rows_of(&item)?,
                What::Outside => self.outside(&item, before)?,
                What::Damage => self.damage(&item)?,
                What::Preamble | What::Comment => {}
            }
            before = Some(item.what);
        }
        self.is_of_entry = false;
        if is_empty {
            self.no_entries()?;
        }
        Ok(())
    }
}
