//! Keys that fields name, where several files are checked: an entry of any of them may have the key.

use std::collections::HashSet;

use bib::check::{other_keys, references, Checked, Finding, Keys, Lines, Standing, Stop};
use bib::Rows;

/// So many of a file are compared with the keys of the others.
const MOST: usize = 1 << 16;

/// A key that a field names.
pub struct Named {
    /// In small letters.
    pub key: Vec<u8>,
    pub line: usize,
    pub column: usize,
    /// The number of its entry, and whether nothing was said of that so far.
    pub entry: usize,
    pub is_sound: bool,
    /// What is said if no file has the key.
    pub finding: Finding,
}

/// Of a file, the keys that its fields name and its entries do not have.
#[derive(Default)]
pub struct Crossrefs {
    pub named: Vec<Named>,
    /// The keys that it has besides those of entries that were read, in small letters.
    others: Vec<Vec<u8>>,
}

impl Crossrefs {
    pub fn of<E>(file: &[u8], rows: &Rows, checked: &Checked) -> Result<Self, Stop<E>> {
        let small = |key: &[u8]| key.to_ascii_lowercase();
        let others = other_keys(file, rows).take(MOST);
        let others = others.map(|key| small(&file[key])).collect();
        let mut named = Vec::new();
        if references(file, rows).next().is_some() {
            let (keys, lines) = (Keys::of(file, rows)?, Lines::of(file)?);
            let lost = references(file, rows).filter(|one| !keys.has(&file[one.key.clone()]));
            for one in lost.take(MOST) {
                let (line, column) = lines.line_and_column(one.key.start);
                let standing = checked.standings.get(one.entry);
                named.push(Named {
                    key: small(&file[one.key.clone()]),
                    line,
                    column,
                    entry: one.entry,
                    is_sound: standing == Some(&Standing::Sound),
                    finding: one.finding(file),
                });
            }
        }
        Ok(Self { named, others })
    }
}

/// Those of all files, until all keys are known.
#[derive(Default)]
pub struct Unmet {
    files: Vec<Waiting>,
    others: HashSet<Vec<u8>>,
}

/// Those of a file.
pub struct Waiting {
    /// The file's number, and whether something was said of it.
    pub index: usize,
    pub is_found: bool,
    pub named: Vec<Named>,
}

impl Unmet {
    /// Those of the next file, of which the entries of these numbers were warned of meanwhile.
    pub fn add(&mut self, index: usize, is_found: bool, of: Crossrefs, warned: &[usize]) {
        let mut named = of.named;
        for one in &mut named {
            one.is_sound &= warned.binary_search(&one.entry).is_err();
        }
        self.others.extend(of.others);
        if !named.is_empty() {
            self.files.push(Waiting {
                index,
                is_found,
                named,
            });
        }
    }

    /// What remains, where there are these keys.
    pub fn without<'a>(self, keys: impl Iterator<Item = &'a Vec<u8>>) -> Vec<Waiting> {
        let mut files = self.files;
        // Most often nothing waits.
        if files.is_empty() {
            return files;
        }
        let mut all = self.others;
        all.extend(keys.map(|key| key.to_ascii_lowercase()));
        for file in &mut files {
            file.named.retain(|one| !all.contains(&one.key));
        }
        files
    }
}
