//! The last line of `bib write`: what became of the entries.

use bib::check::{key_name, Code, Finding, Lines};

use crate::check::counted;
use crate::shown;

/// So many entries that were left out are named in the last line; what is said of each names it too.
const MOST_NAMED: usize = 100;

#[derive(Default)]
pub struct Tally {
    /// Entries that were written.
    pub written: usize,
    /// Entries of damaged pieces, where all of them count.
    pub damaged: usize,
    /// Those of them that have keys, and were asked for.
    named_damaged: usize,
    /// Fields that were written as they stand in the file.
    pub kept: usize,
    /// Entries that cannot be resolved, and were left out.
    unresolved: usize,
    /// Entries with fields that do not come back, how many of these there are, and the last such entry.
    changed: usize,
    fields: usize,
    last: usize,
    /// The entries that were left out, as they are named.
    named: Vec<String>,
}

impl Tally {
    /// A damaged entry is left out.
    pub fn found(&mut self, finding: &Finding, lines: &Lines) {
        if let (Code::Refusal(_), Some(key)) = (finding.code, &finding.key) {
            self.name(key.as_bytes(), lines.number(finding.mark));
            self.named_damaged += 1;
        }
    }

    /// An entry cannot be resolved, and is left out.
    pub fn leave_out(&mut self, key: &[u8], line: usize) {
        self.unresolved += 1;
        self.name(key, line);
    }

    fn name(&mut self, key: &[u8], line: usize) {
        if self.named.len() < MOST_NAMED {
            let key = shown::name(key_name(key).as_bytes());
            let key = if key.is_empty() { "(no key)" } else { &key };
            self.named.push(format!("{key} (line {line})"));
        }
    }

    /// A field of the entry that was written as this one does not come back.
    pub fn changed(&mut self, entry: usize) {
        self.fields += 1;
        self.changed += usize::from(entry != self.last);
        self.last = entry;
    }

    /// The line that says so.
    pub fn line(&self) -> String {
        let mut line = counted(self.written, "entry", "entries") + " written";
        line += &format!(", {} changed", self.changed);
        if self.changed > 0 {
            line += &format!(" in {}", counted(self.fields, "field", "fields"));
        }
        if self.kept > 0 {
            line += &format!(
                ", {} kept as in the file",
                counted(self.kept, "field", "fields")
            );
        }
        let left_out = self.damaged.max(self.named_damaged) + self.unresolved;
        line += &format!(", {left_out} left out");
        if !self.named.is_empty() {
            line += &format!(": {}", self.named.join(", "));
        }
        match left_out.saturating_sub(self.named.len()) {
            0 => {}
            more if self.named.is_empty() => line += &format!(": {more} without a key"),
            more if self.named.len() < MOST_NAMED => line += &format!(" and {more} without a key"),
            more => line += &format!(" and {more} more"),
        }
        line
    }
}
