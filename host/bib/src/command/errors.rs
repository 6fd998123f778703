//! What `bib show` and `bib write` say on standard error, as `bib check` says it.

use std::fmt::Display;
use std::io::{self, BufWriter, Stderr, Write};

use bib::check::{Finding, Level, Lines};

use crate::cut::Cut;
use crate::progress::room;
use crate::report::Report;
use crate::source::Source;
use crate::style::{Color, Style};
use crate::{shown, Status, BUFFER};

pub struct Errors<'a> {
    pub source: &'a Source,
    report: Report<'a>,
    to: BufWriter<Stderr>,
    /// How many warnings of each name there were: as of `bib check`, the first hundred are shown.
    cut: Cut,
    /// Warnings make the exit status 1 too.
    is_strict: bool,
    pub status: Status,
    /// A finding as it is printed, over and over.
    text: Vec<u8>,
}

impl<'a> Errors<'a> {
    pub fn of(source: &'a Source, lenders: &'a [Source], is_strict: bool) -> Self {
        Self {
            source,
            report: Report {
                style: Style::of(Color::Never),
                room: room(&io::stderr()),
                json: false,
                lenders,
            },
            to: BufWriter::with_capacity(BUFFER, io::stderr()),
            cut: Cut::default(),
            is_strict,
            status: Status::Sound,
            text: Vec::new(),
        }
    }

    /// Something of this level was found.
    pub fn found(&mut self, level: Level) {
        if level == Level::Error || self.is_strict {
            self.status = Status::Findings;
        }
    }

    pub fn finding(&mut self, finding: &Finding, lines: &Lines) {
        let level = finding.level();
        self.found(level);
        if !self.cut.shows(finding.code, level) {
            return;
        }
        self.text.clear();
        self.report
            .finding(self.source, finding, level, lines, &mut self.text);
        // Where standard error cannot be written, the exit status is left.
        let _ = self.to.write_all(&self.text);
    }

    /// What the library finds nothing wrong with, at a place of the file.
    pub fn say(&mut self, level: Level, place: impl Display, message: &str) {
        let (source, level_name) = (self.source, level.name());
        let message: String = shown::characters(message.as_bytes()).collect();
        let _ = writeln!(self.to, "{source}:{place}: {level_name}: {message}");
        self.found(level);
    }

    /// A line about the file as a whole.
    pub fn line(&mut self, line: &str) {
        let _ = writeln!(self.to, "{}: {line}", self.source);
    }

    /// Says how many warnings were not shown.
    pub fn left_out(&mut self) {
        for cut in self.cut.left_out() {
            let line = self.report.left_out(self.source, cut, "`bib check --all`");
            let _ = self.to.write_all(line.as_bytes());
        }
    }

    /// Hands all on that was said.
    pub fn flush(&mut self) {
        let _ = self.to.flush();
    }
}
