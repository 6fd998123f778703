//! `--strings`: files whose definitions are lent to those that are read.

use bib::check::{Reading, TOO_LONG_TOGETHER};
use bib::{Lending, Lent, Reason, Refusal};

use crate::source::Source;
use crate::{say, Trouble};

/// The files that `--strings` names, and what they lend.
pub struct Strings<'a> {
    pub sources: &'a [Source],
    pub lent: Lent,
}

impl<'a> Strings<'a> {
    /// Reads them. One that cannot be read, or is too long, is trouble.
    pub fn of(sources: &'a [Source]) -> Result<Self, Trouble> {
        Self::lent_to(sources, None)
    }

    /// The same for a file that may be one of them: to itself it lends nothing.
    pub fn to(source: &Source, sources: &'a [Source]) -> Result<Self, Trouble> {
        Self::lent_to(sources, Some(source))
    }

    fn lent_to(sources: &'a [Source], file: Option<&Source>) -> Result<Self, Trouble> {
        let mut lent = Lent::default();
        for source in sources {
            let is_file = file.is_some_and(|file| source.is_same(file));
            let file = if is_file { Vec::new() } else { source.file()? };
            let added = lent.add(source.to_string(), file);
            added.map_err(|refusal| match refusal.reason {
                Reason::TooLong => Trouble::Input(format!("{source}: {}", refusal.what())),
                _ => Trouble::Input(source.beyond_memory("read")),
            })?;
        }
        Ok(Self { sources, lent })
    }

    /// A reading of the file that has this name, before its values are resolved.
    pub fn reading<'s>(&'s self, file: &[u8], to: &'s str) -> Result<Reading<'s>, Refusal> {
        match self.lending(to) {
            None => Reading::of(file),
            Some(lending) => Reading::lent(file, lending),
        }
    }

    /// The same, with what cannot be resolved.
    pub fn resolved<'s>(
        &'s self,
        limit: u64,
        file: &[u8],
        to: &'s str,
    ) -> Result<Reading<'s>, Refusal> {
        match self.lending(to) {
            None => Reading::resolved_within(limit, file),
            Some(lending) => Reading::lent_within(limit, file, lending),
        }
    }

    fn lending<'s>(&'s self, to: &'s str) -> Option<Lending<'s>> {
        let lent = &self.lent;
        (!self.sources.is_empty()).then_some(Lending { lent, to })
    }

    /// Says of a file that is too long whether it is so by what it is lent.
    pub fn too_long(&self, source: &Source, file: &[u8]) {
        if file.len() <= bib::MOST_BYTES {
            say(&format!("{source}: {TOO_LONG_TOGETHER}"));
        }
    }
}
