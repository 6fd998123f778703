//! The places of a file, and of those that lend it definitions, in their lines.

use std::cell::OnceCell;

use super::finding::Finding;
use super::{Lines, Reading};
use crate::{Lent, Refusal, LENT};

/// The lines of a file and of its lenders, which are made when something is to be said.
pub struct Places<'a> {
    file: &'a [u8],
    own: OnceCell<Lines<'a>>,
    lent: Option<&'a Lent>,
    lenders: Vec<OnceCell<Lines<'a>>>,
}

impl<'a> Places<'a> {
    pub fn of(file: &'a [u8], reading: &Reading<'a>) -> Self {
        let lent = reading.lending.map(|lending| lending.lent);
        let lenders = lent.map_or(0, Lent::lenders);
        Self {
            file,
            own: OnceCell::new(),
            lent,
            lenders: (0..lenders).map(|_| OnceCell::new()).collect(),
        }
    }

    /// The lines of the file itself.
    pub fn lines(&self) -> Result<&Lines<'a>, Refusal> {
        if self.own.get().is_none() {
            let _ = self.own.set(Lines::of(self.file)?);
        }
        Ok(self.own.get().expect("they were made"))
    }

    /// The lines of a lender.
    pub fn lines_of(&self, lender: usize) -> Result<&Lines<'a>, Refusal> {
        let cell = &self.lenders[lender];
        if let (None, Some(lent)) = (cell.get(), self.lent) {
            let _ = cell.set(Lines::of_lender(lent.lender(lender).1, lender)?);
        }
        Ok(cell.get().expect("they were made"))
    }

    /// A place in the file that has it, which may be a lender, and the lines of that.
    pub fn at(&self, place: usize) -> Result<(usize, &Lines<'a>), Refusal> {
        match self.lent.filter(|_| place >= LENT) {
            None => Ok((place, self.lines()?)),
            Some(lent) => {
                let at = lent.place(place);
                Ok((at.place, self.lines_of(at.lender)?))
            }
        }
    }

    /// The same as it is written: `LINE:COLUMN`, and the name of the file before it, where that is a lender.
    pub fn place(&self, place: usize) -> Result<String, Refusal> {
        let (place, lines) = self.at(place)?;
        let place = lines.place(place);
        let name = lines.lender().zip(self.lent);
        let name = name.map(|(lender, lent)| lent.lender(lender).0);
        Ok(name.map_or(place.clone(), |name| [name, ":", &place].concat()))
    }

    /// A finding with the places of the file that it is in, and the lines of that.
    pub fn settle(&self, finding: Finding) -> Result<(Finding, &Lines<'a>), Refusal> {
        let (mark, lines) = self.at(finding.mark)?;
        if lines.lender().is_none() {
            return Ok((finding, lines));
        }
        let (start, end) = (self.at(finding.start)?.0, self.at(finding.end)?.0);
        let settled = Finding {
            start,
            end,
            mark,
            ..finding
        };
        Ok((settled, lines))
    }
}
