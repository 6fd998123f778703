//! Where among the files given a name is defined, which the file that uses it has no definition of.

use std::collections::HashMap;
use std::fs;

use bib::check::Lines;
use bib::Kind;

use crate::source::Source;

/// The definitions of the files given: of each name the first, with the number of its file and its line.
#[derive(Default)]
pub struct Defined(HashMap<Vec<u8>, (usize, usize)>);

impl Defined {
    /// Of all files that can be read once more: standard input cannot, nor a pipe.
    pub fn of(sources: &[Source]) -> Self {
        let mut defined = Self::default();
        for (number, source) in sources.iter().enumerate() {
            let Source::Named(path) = source else {
                continue;
            };
            if fs::metadata(path).is_ok_and(|about| about.is_file()) {
                // A file that cannot be read is said elsewhere.
                let _ = source.file().map(|file| defined.add(number, &file));
            }
        }
        defined
    }

    /// Nothing more is added where memory is short.
    fn add(&mut self, number: usize, file: &[u8]) -> Option<()> {
        let mut words = file.windows(7);
        if !words.any(|word| word.eq_ignore_ascii_case(b"@string")) {
            return None;
        }
        let rows = bib::salvage(file).ok()?;
        let lines = Lines::of(file).ok()?;
        let names = rows.iter().filter(|row| row.kind == Kind::DefinitionName);
        for row in names {
            self.0.try_reserve(1).ok()?;
            let name = file[row.span()].to_vec();
            let place = (number, lines.number(row.start));
            self.0.entry(name).or_insert(place);
        }
        Some(())
    }

    /// What is said of a name without a definition that another file defines.
    pub fn hint(&self, name: &[u8], sources: &[Source]) -> Option<String> {
        let (number, line) = self.0.get(name)?;
        let source = sources[*number].to_string();
        let word = as_word(&source);
        Some(format!(
            "defined in {source}, line {line}: lend it with --strings {word}"
        ))
    }
}

/// A name as one word of the shell.
fn as_word(name: &str) -> String {
    let is_plain = |c: char| c.is_alphanumeric() || "/._-+,:=@%^".contains(c);
    if !name.is_empty() && name.chars().all(is_plain) {
        return name.into();
    }
    format!("'{}'", name.replace('\'', "'\\''"))
}

#[cfg(test)]
mod tests {
    use super::*;

    #[test]
    fn words() {
        assert_eq!(as_word("a/b-1.bib"), "a/b-1.bib");
        assert_eq!(as_word("é.bib"), "é.bib");
        assert_eq!(as_word("my strings.bib"), "'my strings.bib'");
        assert_eq!(as_word("o'b.bib"), "'o'\\''b.bib'");
    }
}
