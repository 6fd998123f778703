//! Of one name's warnings in one file the first hundred are shown, and the number of the others is
//! said once, as compilers do: a file of 16 MB can have four million. Errors are never cut.

use bib::check::{Code, Level, LINTS};

/// So many warnings of a name are shown for a file.
const SHOWN: usize = 100;

/// How many warnings of each name a file has so far, in the order of the lints.
#[derive(Debug, Clone, Copy, Default, PartialEq, Eq)]
pub struct Cut([usize; LINTS.len()]);

impl Cut {
    /// Counts a finding, and says whether it is one of those that are shown.
    pub fn shows(&mut self, code: Code, level: Level) -> bool {
        let (Code::Lint(lint), Level::Warning) = (code, level) else {
            return true;
        };
        let count = &mut self.0[lint as usize];
        *count += 1;
        *count <= SHOWN
    }

    /// The names of which some are not shown, and how many.
    pub fn left_out(&self) -> impl Iterator<Item = (&'static str, usize)> + '_ {
        let counts = LINTS.iter().zip(self.0);
        counts
            .filter(|(_, count)| *count > SHOWN)
            .map(|(about, count)| (about.name, count - SHOWN))
    }
}

#[cfg(test)]
mod tests {
    use super::*;
    use bib::check::Lint;
    use bib::Reason;

    /// The counts go by the lint's number, and so do the names.
    #[test]
    fn lints_in_order() {
        let numbers = LINTS.iter().map(|about| about.lint as usize);
        assert!(numbers.eq(0..LINTS.len()));
    }

    #[test]
    fn hundred_of_each_name() {
        let mut cut = Cut::default();
        let (odd, twice) = (Code::Lint(Lint::OddKey), Code::Lint(Lint::DuplicateField));
        let comma = Code::Refusal(Reason::ExpectedComma);
        for n in 1..=102 {
            assert_eq!(cut.shows(twice, Level::Warning), n <= 100);
            assert!(cut.shows(twice, Level::Error));
            assert!(cut.shows(comma, Level::Error));
        }
        assert!(cut.shows(odd, Level::Warning));
        assert!(cut.left_out().eq([("duplicate-field", 2)]));
    }
}
