//! What resolving refuses, as the values come in file order.

use std::iter::Peekable;
use std::slice::Iter;

use super::explain::Explainer;
use super::finding::Finding;
use super::items::Item;
use super::unresolved::{Once, Unresolved};
use super::{Checker, Lines, Reading, Standing};
use crate::{Reason, Refusal};

/// The values that cannot be resolved, one after the other.
pub(crate) struct Values<'a> {
    rest: Peekable<Iter<'a, Unresolved>>,
    /// Made where there is something to explain.
    explainer: Option<Explainer<'a>>,
    once: Once<'a>,
    /// Where definitions may be lost in a damaged piece: how many names without one are still to be
    /// said. They are said together.
    unknown: Option<usize>,
    /// The place of the last refusal.
    place: Option<usize>,
}

impl<'a> Values<'a> {
    pub fn of(file: &'a [u8], reading: &'a Reading<'a>) -> Result<Self, Refusal> {
        let Reading {
            rows, unresolved, ..
        } = reading;
        let mut values = Self {
            rest: unresolved.iter().peekable(),
            explainer: None,
            once: Once::of(rows, unresolved),
            unknown: None,
            place: None,
        };
        if unresolved.is_empty() {
            return Ok(values);
        }
        let explainer = Explainer::of(file, reading)?;
        if explainer.has_damaged_definitions() {
            let mut once = Once::of(rows, unresolved);
            let mut count = 0;
            for one in unresolved.iter().filter(|one| is_unknown(one)) {
                count += usize::from(once.is_new(one)?);
            }
            values.unknown = Some(count);
        }
        values.explainer = Some(explainer);
        Ok(values)
    }

    /// Whether the value that was asked for last is refused at this place.
    pub fn is_refused_at(&self, place: usize) -> bool {
        self.place == Some(place)
    }

    /// What resolving refuses in the value of this row, if it is to be said, and how many more there are
    /// that are said with it.
    fn next(&mut self, row: usize) -> Result<Option<(&'a Unresolved, usize)>, Refusal> {
        self.place = None;
        let Some(one) = self.rest.next_if(|one| one.value() == row) else {
            return Ok(None);
        };
        self.place = Some(one.refusal().start);
        if !self.once.is_new(one)? {
            return Ok(None);
        }
        match &mut self.unknown {
            Some(0) if is_unknown(one) => Ok(None),
            Some(count) if is_unknown(one) => Ok(Some((one, std::mem::take(count) - 1))),
            _ => Ok(Some((one, 0))),
        }
    }
}

fn is_unknown(one: &Unresolved) -> bool {
    one.refusal().reason == Reason::UnknownAbbreviation
}

impl<E, S: FnMut(&Finding, &Lines) -> Result<(), E>> Checker<'_, S> {
    /// Why the value of this row cannot be resolved.
    pub(crate) fn value(&mut self, row: usize, item: &Item) -> Result<Option<Finding>, Refusal> {
        let next = self.values.next(row)?;
        if self.values.place.is_some() {
            self.stands(Standing::Unresolved);
        }
        let Some((one, more)) = next else {
            return Ok(None);
        };
        let explainer = self.values.explainer.as_ref();
        let finding = explainer.map(|one_by| one_by.finding_of(one, item, &self.places, more));
        finding.transpose()
    }
}
