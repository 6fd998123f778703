//! Definitions that other files lend. In memory they stand before the file that is resolved, as if they
//! had been written there: the last definition of a name counts, so that the file's own ones win, and the
//! proved library knows nothing of it. Places are then told as those of the file that has them.

use crate::check::{is_damaged_string, Items, Reading, What};
use crate::row::NUMBERS;
use crate::{Kind, Reason, Refusal, Rows, MOST_BYTES};

/// A place from here on is one in the definitions that were lent, [`Lent::place`] says where: no file has so
/// many bytes.
pub const LENT: usize = 1 << 31;

/// The definitions of other files.
#[derive(Debug, Default)]
pub struct Lent {
    lenders: Vec<Lender>,
    /// The definitions, one `@string` behind the other; their rows, and how many values these have.
    text: Vec<u8>,
    rows: Rows,
    values: usize,
    parts: Vec<Part>,
    /// The first damaged piece of a lender that begins with `@string`.
    damaged: Option<LentPlace>,
}

#[derive(Debug)]
struct Lender {
    name: String,
    file: Vec<u8>,
}

/// One `@string`: where it stands in the text, and where in its file.
#[derive(Debug, Clone, Copy)]
struct Part {
    at: usize,
    from: LentPlace,
}

/// A place of a file that lends definitions.
#[derive(Debug, Clone, Copy, PartialEq, Eq)]
pub struct LentPlace {
    /// Which file: the one that was added first is 0.
    pub lender: usize,
    pub place: usize,
}

/// Definitions that are lent to one file.
#[derive(Debug, Clone, Copy)]
pub struct Lending<'a> {
    pub lent: &'a Lent,
    /// What the file is called.
    pub to: &'a str,
}

impl Lent {
    /// Adds the definitions of a file, which has this name in what is said; damaged pieces lend none. Refused
    /// where the file is too long.
    pub fn add(&mut self, name: String, file: Vec<u8>) -> Result<(), Refusal> {
        let lender = self.lenders.len();
        let reading = Reading::of(&file)?;
        let from = |place| LentPlace { lender, place };
        for item in Items::of(&file, &reading.rows) {
            if item.what == What::Definitions {
                let rows = item.rows.start * NUMBERS..item.rows.end * NUMBERS;
                let rows = &reading.rows.numbers()[rows];
                self.put(&file[item.span.clone()], rows, from(item.span.start))?;
            }
        }
        let mut pieces = reading.rows.iter();
        let damaged = pieces.find(|row| is_damaged_string(&file, *row));
        self.damaged = self.damaged.or(damaged.map(|row| from(row.start)));
        self.lenders.try_reserve(1)?;
        self.lenders.push(Lender { name, file });
        Ok(())
    }

    /// Puts one `@string` behind the others.
    fn put(&mut self, text: &[u8], rows: &[u32], from: LentPlace) -> Result<(), Refusal> {
        self.text.try_reserve(text.len() + 1)?;
        self.parts.try_reserve(1)?;
        let at = self.text.len();
        self.parts.push(Part { at, from });
        self.text.extend_from_slice(text);
        self.text.push(b'\n');
        self.rows.extend(rows, at as i64 - from.place as i64)?;
        let values = rows.chunks_exact(NUMBERS);
        self.values += values.filter(|row| row[0] == Kind::Value.number()).count();
        Ok(())
    }

    /// Where a place from [`LENT`] on is.
    pub fn place(&self, place: usize) -> LentPlace {
        let place = place - LENT;
        let after = self.parts.partition_point(|part| part.at <= place);
        let Part { at, from } = self.parts[after - 1];
        LentPlace {
            place: from.place + place - at,
            ..from
        }
    }

    /// What a lender is called, and its file.
    pub fn lender(&self, number: usize) -> (&str, &[u8]) {
        let Lender { name, file } = &self.lenders[number];
        (name, file)
    }

    pub fn lenders(&self) -> usize {
        self.lenders.len()
    }

    /// The names that are defined, in the order in which they are lent, each with its place from [`LENT`] on.
    pub fn names(&self) -> impl Iterator<Item = (&[u8], usize)> {
        let rows = self.rows.iter();
        let names = rows.filter(|row| row.kind == Kind::DefinitionName);
        names.map(|row| (&self.text[row.span()], LENT + row.start))
    }

    pub(crate) fn text(&self) -> &[u8] {
        &self.text
    }

    pub(crate) fn rows(&self) -> &Rows {
        &self.rows
    }

    pub(crate) fn damaged(&self) -> Option<LentPlace> {
        self.damaged
    }

    /// Refused where a file and the definitions would be longer than a file may be.
    pub fn fits(&self, file: &[u8]) -> Result<(), Refusal> {
        if self.text.len() + file.len() > MOST_BYTES {
            return Err(Refusal {
                reason: Reason::TooLong,
                start: 0,
                end: 0,
            });
        }
        Ok(())
    }

    /// The definitions and then a file, its rows and the flags of its values.
    pub(crate) fn before(
        &self,
        file: &[u8],
        rows: &Rows,
        flags: &[bool],
    ) -> Result<(Vec<u8>, Rows, Vec<bool>), Refusal> {
        self.fits(file)?;
        let mut bytes = Vec::new();
        bytes.try_reserve_exact(self.text.len() + file.len())?;
        bytes.extend_from_slice(&self.text);
        bytes.extend_from_slice(file);
        let mut all = Rows::default();
        all.extend(self.rows.numbers(), 0)?;
        all.extend(rows.numbers(), self.text.len() as i64)?;
        let mut both = Vec::new();
        both.try_reserve_exact(self.values + flags.len())?;
        both.resize(self.values, false);
        both.extend_from_slice(flags);
        Ok((bytes, all, both))
    }

    pub(crate) fn values(&self) -> usize {
        self.values
    }
}

#[cfg(test)]
mod tests {
    use super::*;

    #[test]
    fn places() {
        let mut lent = Lent::default();
        lent.add("a".into(), b"x @string{a={x}}@b{k,}@string{b=a}".to_vec())
            .unwrap();
        lent.add("b".into(), b"@string{(\n@string{c={y}}".to_vec())
            .unwrap();
        assert_eq!(lent.text, b"@string{a={x}}\n@string{b=a}\n@string{c={y}}\n");
        let seen = |place| {
            let LentPlace { lender, place } = lent.place(LENT + place);
            (lender, lent.lender(lender).1[place])
        };
        for (place, byte) in lent
            .text
            .iter()
            .enumerate()
            .filter(|(_, byte)| **byte != b'\n')
        {
            assert_eq!(seen(place), (usize::from(place >= 28), *byte));
        }
        let damaged = LentPlace {
            lender: 1,
            place: 0,
        };
        assert_eq!(lent.damaged, Some(damaged));
    }

    #[test]
    fn longest() {
        let mut lent = Lent::default();
        lent.add("a".into(), b"@string{a=1}".to_vec()).unwrap();
        let mut file = vec![b' '; MOST_BYTES - 13];
        assert!(lent.fits(&file).is_ok());
        file.push(b' ');
        assert_eq!(lent.fits(&file).unwrap_err().reason, Reason::TooLong);
    }
}
