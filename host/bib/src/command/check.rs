//! `bib check`: for people. What is wrong, with its line and marks under the character at the place.

use std::collections::HashMap;
use std::io::{self, BufWriter, Stdout, Write};
use std::sync::OnceLock;

use bib::check::{
    self, Checked, Code, Counts, Finding, Level, Lines, Lint, Lints, Reading, Standing, Stop,
};
use bib::{Kind, Reason, Refusal};

use crate::crossrefs::{Crossrefs, Unmet, Waiting};
use crate::cut::Cut;
use crate::defined::Defined;
use crate::folder;
use crate::lending::Strings;
use crate::levels::Levels;
use crate::progress::{room, Progress};
use crate::report::{Report, Spot};
use crate::source::Source;
use crate::style::Style;
use crate::turns::{Failed, Page, Sink, Turns};
use crate::words::Asked;
use crate::{say, Status, Trouble, BUFFER};

/// A file of more bytes waits for its turn, so that one such file is in work at a time: reading and
/// resolving take up to 48 bytes of memory for each byte.
const LARGE: usize = 1 << 20;

pub fn check(asked: &Asked, sources: Vec<Source>) -> Result<Status, Trouble> {
    let strings = Strings::of(&asked.strings)?;
    let (sources, troubles) = folder::expanded(sources);
    let report = Report {
        style: Style::of(asked.color),
        room: room(&io::stdout()),
        json: asked.json,
        lenders: &asked.strings,
    };
    let checking = Checking {
        asked,
        report,
        sources: &sources,
        strings: &strings,
        defined: OnceLock::new(),
    };
    for trouble in &troubles {
        say(trouble);
    }
    let results = Results {
        checking: &checking,
        out: BufWriter::with_capacity(BUFFER, io::stdout()),
        progress: Progress::new(),
        tally: Tally {
            unread: troubles.len(),
            ..Tally::default()
        },
        keys: HashMap::new(),
        unmet: Unmet::default(),
    };
    let mut results = Turns::run(results, sources.len(), |page| checking.file(page))?;
    results.progress.clear();
    results.unmet()?;
    if results.tally.read > 0 && !asked.json && !asked.quiet {
        writeln!(results.out, "{}", results.tally.summary())?;
    }
    results.out.flush()?;
    Ok(results.tally.status(&asked.levels))
}

/// What all files are checked by.
struct Checking<'a> {
    asked: &'a Asked,
    report: Report<'a>,
    sources: &'a [Source],
    strings: &'a Strings<'a>,
    /// Where names are defined among the files, read once one has no definition in its own.
    defined: OnceLock<Defined>,
}

/// What was found in a file.
#[derive(Default)]
struct Outcome {
    entries: Counts,
    errors: usize,
    warnings: usize,
    cut: Cut,
    keys: Vec<Key>,
    crossrefs: Crossrefs,
    /// What kept it from being checked to its end.
    trouble: Option<String>,
}

/// A key, and where it is.
struct Key {
    /// The number of its entry.
    entry: usize,
    text: Vec<u8>,
    start: usize,
    line: usize,
    column: usize,
    /// Nothing was said of its entry so far.
    is_sound: bool,
}

impl Checking<'_> {
    fn file(&self, page: &mut Page<Results>) -> Result<Outcome, Failed> {
        let source = &self.sources[page.index];
        let file = match source.file() {
            Ok(file) => file,
            Err(Trouble::Input(what)) => return Ok(Outcome::not_read(what)),
            Err(_) => return Err(Failed),
        };
        if file.len() > LARGE {
            page.wait()?;
        }
        let mut outcome = Outcome::default();
        let checked = self.findings(&file, page, &mut outcome);
        match checked {
            Ok(()) => Ok(outcome),
            Err(Stop::Refused(_)) => {
                outcome.trouble = Some(source.beyond_memory("check"));
                Ok(outcome)
            }
            Err(Stop::Caller(failed)) => Err(failed),
        }
    }

    fn findings(
        &self,
        file: &[u8],
        page: &mut Page<Results>,
        outcome: &mut Outcome,
    ) -> Result<(), Stop<Failed>> {
        let source = &self.sources[page.index];
        let mut text = Vec::new();
        let print = |finding: &Finding, lines: &Lines| {
            let Some(level) = self.asked.levels.of(finding) else {
                return Ok(());
            };
            if !outcome.shows(finding, level, self.asked) {
                return Ok(());
            }
            text.clear();
            let other = self.defined_elsewhere(finding, lines);
            let finding = other.as_ref().unwrap_or(finding);
            self.report
                .finding(source, finding, level, lines, &mut text);
            page.write(&text)
        };
        let own = match self.own_strings(source) {
            Ok(own) => own,
            Err(what) => {
                outcome.trouble = Some(what);
                return Ok(());
            }
        };
        let strings = own.as_ref().unwrap_or(self.strings);
        let name = source.to_string();
        let reading = self.reading(file, strings, &name);
        let checked = check::check_reading(file, &reading, self.lints(), print)?;
        outcome.entries = checked.counts();
        match reading {
            Ok(reading) if self.sources.len() > 1 => {
                self.compared_later(file, &reading, &checked, outcome)
            }
            _ => Ok(()),
        }
    }

    /// The lints that one file is looked through for. Of several, another may have the key that a field names.
    fn lints(&self) -> Lints {
        let lints = self.asked.levels.lints();
        if self.sources.len() > 1 {
            return lints.without(Lint::UnknownCrossref);
        }
        lints
    }

    /// Keeps what is compared with the other files: the keys, and those that fields name.
    fn compared_later(
        &self,
        file: &[u8],
        reading: &Reading,
        checked: &Checked,
        outcome: &mut Outcome,
    ) -> Result<(), Stop<Failed>> {
        outcome.keys = self.keys(file, reading, checked)?;
        if self.asked.levels.of_lint(Lint::UnknownCrossref).is_some() {
            outcome.crossrefs = Crossrefs::of(file, &reading.rows, checked)?;
        }
        Ok(())
    }

    fn reading<'s>(
        &self,
        file: &[u8],
        strings: &'s Strings,
        name: &'s str,
    ) -> Result<Reading<'s>, Refusal> {
        if self.asked.no_resolve {
            Reading::of(file)
        } else {
            strings.resolved(self.asked.limit.0, file, name)
        }
    }

    /// The files that lend definitions to one of them: it needs none of its own.
    fn own_strings(&self, source: &Source) -> Result<Option<Strings<'_>>, String> {
        let sources = self.strings.sources;
        if !sources.iter().any(|lender| lender.is_same(source)) {
            return Ok(None);
        }
        match Strings::to(source, sources) {
            Ok(strings) => Ok(Some(strings)),
            Err(Trouble::Input(what)) => Err(what),
            Err(_) => Err(source.beyond_memory("check")),
        }
    }

    /// A finding about a name without a definition, with the hint that another of the files defines it.
    fn defined_elsewhere(&self, finding: &Finding, lines: &Lines) -> Option<Finding> {
        let is_unknown = finding.code == Code::Refusal(Reason::UnknownAbbreviation);
        if !is_unknown || self.sources.len() < 2 {
            return None;
        }
        let defined = self.defined.get_or_init(|| Defined::of(self.sources));
        let name = &lines.file()[finding.start..finding.end];
        let hint = Some(defined.hint(name, self.sources)?);
        Some(Finding {
            hint,
            ..finding.clone()
        })
    }

    /// The keys, where those of several files are compared.
    fn keys(
        &self,
        file: &[u8],
        reading: &Reading,
        checked: &Checked,
    ) -> Result<Vec<Key>, Stop<Failed>> {
        let mut keys = Vec::new();
        let lints = [Lint::KeyInTwoFiles, Lint::UnknownCrossref];
        if lints
            .iter()
            .all(|lint| self.asked.levels.of_lint(*lint).is_none())
        {
            return Ok(keys);
        }
        let lines = Lines::of(file)?;
        let all = reading.rows.iter().filter(|row| row.kind == Kind::Key);
        let all = all.zip(&checked.standings).enumerate();
        for (entry, (key, standing)) in all.filter(|(_, (key, _))| key.start < key.end) {
            let (line, column) = lines.line_and_column(key.start);
            let mut text = Vec::new();
            text.try_reserve_exact(key.end - key.start)?;
            text.extend_from_slice(&file[key.span()]);
            keys.try_reserve(1)?;
            keys.push(Key {
                entry,
                text,
                start: key.start,
                line,
                column,
                is_sound: *standing == Standing::Sound,
            });
        }
        Ok(keys)
    }
}

impl Outcome {
    /// Counts a finding, and says whether it is shown. Scripts get every one.
    fn shows(&mut self, finding: &Finding, level: Level, asked: &Asked) -> bool {
        match level {
            Level::Error => self.errors += 1,
            Level::Warning => self.warnings += 1,
        }
        !asked.quiet && (asked.all || asked.json || self.cut.shows(finding.code, level))
    }

    fn not_read(what: String) -> Self {
        Self {
            trouble: Some(what),
            ..Self::default()
        }
    }
}

/// What is printed and counted, in the order of the files.
struct Results<'a> {
    checking: &'a Checking<'a>,
    out: BufWriter<Stdout>,
    progress: Progress,
    tally: Tally,
    /// Where a key was seen first: the file's number, line and column.
    keys: HashMap<Vec<u8>, (usize, usize, usize)>,
    unmet: Unmet,
}

impl Sink for Results<'_> {
    type Outcome = Outcome;

    fn part(&mut self, index: usize, part: &[u8]) -> io::Result<()> {
        let sources = self.checking.sources;
        let line = || {
            format!(
                "checking {} of {}: {}",
                index + 1,
                sources.len(),
                sources[index]
            )
        };
        self.progress.pass(line, !part.is_empty());
        self.out.write_all(part)
    }

    fn end(&mut self, index: usize, mut outcome: Outcome) -> io::Result<()> {
        let keys = std::mem::take(&mut outcome.keys);
        let mut warned = Vec::new();
        for key in keys {
            let entry = key.entry;
            if self.key(index, key, &mut outcome)? {
                warned.push(entry);
            }
        }
        let crossrefs = std::mem::take(&mut outcome.crossrefs);
        let is_found = outcome.errors + outcome.warnings > 0;
        self.unmet.add(index, is_found, crossrefs, &warned);
        let Checking {
            report, sources, ..
        } = self.checking;
        for cut in outcome.cut.left_out() {
            let text = report.left_out(&sources[index], cut, "--all");
            self.out.write_all(text.as_bytes())?;
        }
        self.tally.add(&outcome);
        if let Some(what) = outcome.trouble {
            // Findings come before what the next file makes appear on standard error.
            self.out.flush()?;
            self.progress.clear();
            say(&what);
        }
        Ok(())
    }
}

impl Results<'_> {
    /// A key that another file has too is a finding. Says whether it is one.
    fn key(&mut self, index: usize, key: Key, outcome: &mut Outcome) -> io::Result<bool> {
        let Checking {
            asked,
            report,
            sources,
            ..
        } = self.checking;
        if self.keys.try_reserve(1).is_err() {
            let what = sources[index].beyond_memory("compare the keys of");
            outcome.trouble = Some(what);
            return Ok(false);
        }
        let place = (index, key.line, key.column);
        let first = *self.keys.entry(key.text.clone()).or_insert(place);
        let level = asked.levels.of_lint(Lint::KeyInTwoFiles);
        let Some(level) = level.filter(|_| first.0 != index) else {
            return Ok(false);
        };
        let other = format!("{}:{}:{}", sources[first.0], first.1, first.2);
        let finding = key.finding(&other);
        if key.is_sound {
            outcome.entries.sound -= 1;
            outcome.entries.warned += 1;
        }
        if outcome.shows(&finding, level, asked) {
            let spot = Spot {
                source: &sources[index],
                line: key.line,
                column: key.column,
            };
            let mut text = Vec::new();
            report.bare(&spot, &finding, level, &mut text);
            self.out.write_all(&text)?;
        }
        Ok(true)
    }

    /// Says which keys that fields name are in none of the files.
    fn unmet(&mut self) -> io::Result<()> {
        let unmet = std::mem::take(&mut self.unmet);
        for waiting in unmet.without(self.keys.keys()) {
            self.unmet_of(waiting)?;
        }
        Ok(())
    }

    fn unmet_of(&mut self, waiting: Waiting) -> io::Result<()> {
        let Checking {
            asked,
            report,
            sources,
            ..
        } = self.checking;
        let Some(level) = asked.levels.of_lint(Lint::UnknownCrossref) else {
            return Ok(());
        };
        let source = &sources[waiting.index];
        let mut outcome = Outcome::default();
        let mut last = None;
        for named in &waiting.named {
            // An entry may name several.
            let is_new = last.replace(named.entry) != Some(named.entry);
            outcome.entries.warned += usize::from(named.is_sound && is_new);
            if outcome.shows(&named.finding, level, asked) {
                let (line, column) = (named.line, named.column);
                let spot = Spot {
                    source,
                    line,
                    column,
                };
                let mut text = Vec::new();
                report.bare(&spot, &named.finding, level, &mut text);
                self.out.write_all(&text)?;
            }
        }
        for cut in outcome.cut.left_out() {
            let text = report.left_out(source, cut, "--all");
            self.out.write_all(text.as_bytes())?;
        }
        self.tally.unmet(&outcome, waiting.is_found);
        Ok(())
    }
}

impl Key {
    /// That the key is at another place too.
    fn finding(&self, other: &str) -> Finding {
        let text = String::from_utf8_lossy(&self.text).into_owned();
        Finding {
            code: Code::Lint(Lint::KeyInTwoFiles),
            start: self.start,
            end: self.start + self.text.len(),
            mark: self.start,
            message: format!("the key {text} is in {other} too"),
            hint: None,
            key: Some(text),
        }
    }
}

/// What was found in all files so far.
#[derive(Default)]
struct Tally {
    entries: Counts,
    errors: usize,
    warnings: usize,
    /// Files that were read, those of them with findings, and those that were not read.
    read: usize,
    found: usize,
    unread: usize,
}

impl Tally {
    fn add(&mut self, outcome: &Outcome) {
        if outcome.trouble.is_some() {
            self.unread += 1;
        } else {
            self.read += 1;
        }
        self.entries.add(&outcome.entries);
        self.errors += outcome.errors;
        self.warnings += outcome.warnings;
        self.found += usize::from(outcome.errors + outcome.warnings > 0);
    }

    /// What was found of a file at last, of which something was said before or not.
    fn unmet(&mut self, outcome: &Outcome, is_found: bool) {
        self.entries.sound -= outcome.entries.warned;
        self.entries.warned += outcome.entries.warned;
        self.errors += outcome.errors;
        self.warnings += outcome.warnings;
        let count = outcome.errors + outcome.warnings;
        self.found += usize::from(!is_found && count > 0);
    }

    fn status(&self, levels: &Levels) -> Status {
        if self.unread > 0 {
            Status::Trouble
        } else if self.errors > 0 || levels.strict && self.warnings > 0 {
            Status::Findings
        } else {
            Status::Sound
        }
    }

    fn summary(&self) -> String {
        let Counts {
            sound,
            warned,
            unresolved,
            damaged,
        } = self.entries;
        let mut text = counted(sound, "entry", "entries") + " sound";
        for (count, how) in [
            (warned, "with warnings"),
            (unresolved, "with unresolved fields"),
            (damaged, "damaged"),
        ] {
            if count > 0 {
                text += &format!(", {count} {how}");
            }
        }
        for (count, one, many) in [
            (self.errors, "error", "errors"),
            (self.warnings, "warning", "warnings"),
        ] {
            text += &format!(", {}", counted(count, one, many));
        }
        if self.read > 1 {
            text += &format!("; findings in {} of {} files", self.found, self.read);
        }
        if self.unread > 0 {
            text += &format!("; {} not read", counted(self.unread, "file", "files"));
        }
        text
    }
}

/// How many, with the word for one or for several.
pub fn counted(n: usize, one: &str, many: &str) -> String {
    format!("{n} {}", if n == 1 { one } else { many })
}
