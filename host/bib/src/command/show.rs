//! `bib show`: for people. Entries with their fields resolved; what cannot be is said as `bib check` says
//! it.

use std::collections::HashMap;
use std::ffi::OsString;
use std::io::{self, Write};

use bib::check::{Code, Explainer, Finding, Level, Lines, Places, Stop};
use bib::ENGLISH_MONTHS;

use crate::entries::{opened, Entry, Field, Opened};
use crate::errors::Errors;
use crate::lending::Strings;
use crate::progress::room;
use crate::report::Report;
use crate::screen::Screen;
use crate::source::Source;
use crate::style::{Color, Style};
use crate::wanted::Wanted;
use crate::width::width;
use crate::words::Showing;
use crate::{say, shown, Status, Trouble};

/// Columns behind a line's number that need no more than so many characters, with the colon, stand below
/// each other.
const LONGEST_COLUMN: usize = 3;

/// Names of fields that are wider do not move the texts of the others.
const WIDEST: usize = 16;

pub fn show(
    showing: &Showing,
    source: &Source,
    keys: &[OsString],
    out: &mut impl Write,
) -> Result<Status, Trouble> {
    let strings = Strings::to(source, &showing.strings)?;
    let file = source.file()?;
    let mut shower = Shower {
        source,
        showing,
        errors: Errors::of(source, &showing.strings, showing.strict),
        report: Report {
            style: Style::of(Color::Auto),
            room: room(&io::stdout()),
            json: showing.json,
            lenders: &showing.strings,
        },
        wanted: Wanted::of(keys),
        is_first: true,
        status: Status::Sound,
        text: Vec::new(),
        out,
    };
    let shown = shower.file(&file, &strings);
    shower.errors.left_out();
    shower.errors.flush();
    match shown {
        Ok(()) => Ok(shower.status.max(shower.errors.status)),
        Err(Stop::Caller(error)) => Err(Trouble::Output(error)),
        Err(Stop::Refused(_)) => Err(Trouble::Input(source.beyond_memory("show"))),
    }
}

struct Shower<'a, W> {
    source: &'a Source,
    showing: &'a Showing,
    /// What is lost in the file is said on standard error.
    errors: Errors<'a>,
    report: Report<'a>,
    wanted: Wanted<'a>,
    /// Nothing has been shown yet.
    is_first: bool,
    status: Status,
    /// A part of the output that is put together, over and over.
    text: Vec<u8>,
    out: W,
}

impl<W: Write> Shower<'_, W> {
    fn file(&mut self, file: &[u8], strings: &Strings) -> Result<(), Stop<io::Error>> {
        let name = self.source.to_string();
        let opened = opened(
            self.showing.limit,
            strings,
            (file, &name),
            |finding, lines| self.found(finding, lines),
        )?;
        let Some(opened) = opened else {
            return Ok(());
        };
        let places = opened.places();
        let screen = Screen {
            source: self.source,
            places: &places,
            sentence: self.showing.sentence,
            definitions: match self.showing {
                Showing {
                    places: false,
                    json: false,
                    ..
                } => HashMap::new(),
                _ => opened.definitions()?,
            },
        };
        let explainer = opened.explainer()?;
        for entry in opened.entries() {
            if !self.wanted.takes(entry.key()) {
                continue;
            }
            if self.showing.json {
                self.object(&entry, &screen, explainer.as_ref())?;
            } else {
                self.entry(&entry, &screen, explainer.as_ref())?;
            }
        }
        self.missing(file, &opened).map_err(Stop::Caller)
    }

    /// What is damaged or lost, unless it is known to be of another entry than those that are asked for.
    fn found(&mut self, finding: &Finding, lines: &Lines) -> io::Result<()> {
        let key = finding.key.as_deref().unwrap_or_default();
        if !self.wanted.takes_name(key) {
            return Ok(());
        }
        match finding.code {
            Code::Lint(_) => self.errors.finding(finding, lines),
            Code::Refusal(_) => {
                self.is_first = false;
                self.finding(finding, lines)?;
            }
        }
        Ok(())
    }

    fn finding(&mut self, finding: &Finding, lines: &Lines) -> io::Result<()> {
        self.status = Status::Findings;
        self.text.clear();
        self.report
            .finding(self.source, finding, Level::Error, lines, &mut self.text);
        self.out.write_all(&self.text)
    }

    /// An entry as JSON, in a line.
    fn object<'o>(
        &mut self,
        entry: &Entry<'o>,
        screen: &Screen<'o>,
        explainer: Option<&Explainer<'o>>,
    ) -> Result<(), Stop<io::Error>> {
        let (mut errors, mut unresolved) = (Vec::new(), entry.unresolved.iter().peekable());
        for field in entry.fields() {
            let one = unresolved.next_if(|_| field.value.is_none());
            let error = match explainer.zip(one) {
                None => None,
                Some((explainer, one)) => {
                    self.status = Status::Findings;
                    let (finding, lines) = explainer.finding(one, &entry.item, screen.places)?;
                    let report = &self.report;
                    Some(report.object(self.source, &finding, Level::Error, lines))
                }
            };
            errors.push(error);
        }
        let line = screen.entry(entry, &errors)?.line();
        self.out.write_all(line.as_bytes()).map_err(Stop::Caller)
    }

    fn entry<'o>(
        &mut self,
        entry: &Entry<'o>,
        screen: &Screen<'o>,
        explainer: Option<&Explainer<'o>>,
    ) -> Result<(), Stop<io::Error>> {
        let places = screen.places;
        self.blank().map_err(Stop::Caller)?;
        self.place(places, entry.item.span.start)?;
        self.head(entry).map_err(Stop::Caller)?;
        let names = entry.fields().map(|field| columns(field.name));
        let widest = names.filter(|wide| *wide <= WIDEST).max().unwrap_or(0);
        let mut unresolved = entry.unresolved.iter();
        for field in entry.fields() {
            self.place(places, field.place)?;
            self.name(field.name, widest).map_err(Stop::Caller)?;
            if let Some(value) = field.value {
                let text = entry.text_of(&field, value, screen.sentence)?;
                self.line(&text).map_err(Stop::Caller)?;
                self.names(entry, &field, screen)?;
                continue;
            }
            self.line("(not resolved)").map_err(Stop::Caller)?;
            self.names(entry, &field, screen)?;
            if let (Some(explainer), Some(one)) = (explainer, unresolved.next()) {
                let (finding, lines) = explainer.finding(one, &entry.item, places)?;
                self.finding(&finding, lines).map_err(Stop::Caller)?;
            }
        }
        Ok(())
    }

    /// A line and a column before what stands there, if they are asked for.
    fn place(&mut self, places: &Places, place: usize) -> Result<(), Stop<io::Error>> {
        if !self.showing.places {
            return Ok(());
        }
        let lines = places.lines()?;
        let wide = lines.count().to_string().len() + LONGEST_COLUMN;
        let place = lines.place(place);
        write!(self.out, "{place:<wide$} ").map_err(Stop::Caller)
    }

    /// The names that stand in the value of a field, where places are asked for: each with its own, and
    /// with that of its definition.
    fn names(
        &mut self,
        entry: &Entry,
        field: &Field,
        screen: &Screen,
    ) -> Result<(), Stop<io::Error>> {
        if !self.showing.places {
            return Ok(());
        }
        for (name, place) in entry.names_of(field) {
            self.place(screen.places, place)?;
            let what = match screen.definitions.get(name) {
                Some(place) => format!("defined at {}", screen.places.place(*place)?),
                None if is_month(name) => "a month".into(),
                None => "without a definition".into(),
            };
            let name: String = shown::characters(name).collect();
            writeln!(self.out, "    {name}, {what}").map_err(Stop::Caller)?;
        }
        Ok(())
    }

    /// A blank line, but before what is shown first.
    fn blank(&mut self) -> io::Result<()> {
        if !self.is_first {
            self.out.write_all(b"\n")?;
        }
        self.is_first = false;
        Ok(())
    }

    /// The type and the key.
    fn head(&mut self, entry: &Entry) -> io::Result<()> {
        let Style { bold, plain, .. } = self.report.style;
        let shown = |text: &[u8]| shown::characters(text).collect::<String>();
        let (kind, mut key) = (shown(entry.kind()), shown(entry.key()));
        if key.is_empty() {
            // No key has a blank.
            key = "(no key)".into();
        }
        writeln!(self.out, "{bold}{kind} {key}{plain}")
    }

    fn name(&mut self, name: &[u8], widest: usize) -> io::Result<()> {
        let blanks = widest.saturating_sub(columns(name)) + 2;
        self.text.clear();
        self.text.extend_from_slice(b"  ");
        shown::put_text(name, &mut self.text);
        self.text.resize(self.text.len() + blanks, b' ');
        self.out.write_all(&self.text)
    }

    /// A text to the end of its line. It may be long, so that no copy is made of it.
    fn line(&mut self, text: &str) -> io::Result<()> {
        let mut rest = text;
        if shown::is_plain(text.as_bytes()) {
            self.out.write_all(text.as_bytes())?;
            return self.out.write_all(b"\n");
        }
        while let Some(place) = rest.find(|c| shown::character(c) != c) {
            let (before, from) = rest.split_at(place);
            let mut all = from.chars();
            let c = all.next().map_or(' ', shown::character);
            write!(self.out, "{before}{c}")?;
            rest = all.as_str();
        }
        writeln!(self.out, "{rest}")
    }

    /// The keys that no entry has.
    fn missing(&mut self, file: &[u8], opened: &Opened) -> io::Result<()> {
        let sentences = self.wanted.missing(self.source, file, &opened.reading.rows);
        if !sentences.is_empty() {
            self.status = Status::Findings;
            // What was shown comes before.
            self.out.flush()?;
        }
        for sentence in sentences {
            say(&sentence);
        }
        Ok(())
    }
}

fn is_month(name: &[u8]) -> bool {
    let mut months = ENGLISH_MONTHS.iter();
    months.any(|(word, _)| word.as_bytes() == name)
}

fn columns(name: &[u8]) -> usize {
    if shown::is_plain(name) {
        return name.len();
    }
    shown::characters(name).map(width).sum()
}
