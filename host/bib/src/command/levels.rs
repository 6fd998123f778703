//! Which findings are wanted, and how grave they are.

use bib::check::{Code, Finding, Level, Lint, Lints};

/// What was asked about the lints.
#[derive(Debug, Clone, Default, PartialEq, Eq)]
pub struct Levels {
    pub allowed: Vec<Lint>,
    pub denied: Vec<Lint>,
    /// Warnings make the exit status 1 too.
    pub strict: bool,
}

impl Levels {
    /// The level of a finding, or nothing if it is not wanted.
    pub fn of(&self, finding: &Finding) -> Option<Level> {
        match finding.code {
            Code::Refusal(_) => Some(Level::Error),
            Code::Lint(lint) => self.of_lint(lint),
        }
    }

    /// The lints that are wanted.
    pub fn lints(&self) -> Lints {
        let is_unwanted = |lint: &&Lint| self.of_lint(**lint).is_none();
        let unwanted = self.allowed.iter().filter(is_unwanted);
        unwanted.fold(Lints::ALL, |lints, lint| lints.without(*lint))
    }

    pub fn of_lint(&self, lint: Lint) -> Option<Level> {
        if self.denied.contains(&lint) {
            Some(Level::Error)
        } else if self.allowed.contains(&lint) {
            None
        } else {
            Some(Level::Warning)
        }
    }
}
