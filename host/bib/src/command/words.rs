//! The words that the command is given.

use std::ffi::{OsStr, OsString};
use std::os::unix::ffi::OsStrExt;
use std::path::PathBuf;

use bib::check::{Lint, LINTS};

use crate::levels::Levels;
use crate::near::nearest;
use crate::shown;
use crate::source::Source;
use crate::style::Color;
use crate::Trouble;

/// Work on one source.
#[derive(Debug, Clone, Copy, PartialEq, Eq)]
pub enum Work {
    Rows,
    Salvage,
    Pack,
    Unpack,
}

/// How `bib check` is asked. As below, `strings` are the files that lend definitions.
#[derive(Debug, Clone, Default, PartialEq, Eq)]
pub struct Asked {
    pub levels: Levels,
    /// Every warning is shown, however many have one name.
    pub all: bool,
    /// What was read is not resolved.
    pub no_resolve: bool,
    pub json: bool,
    pub quiet: bool,
    pub color: Color,
    pub limit: Limit,
    pub strings: Vec<Source>,
}

/// So many bytes the values of a file may come to.
#[derive(Debug, Clone, Copy, PartialEq, Eq)]
pub struct Limit(pub u64);

impl Default for Limit {
    fn default() -> Self {
        Self(bib::USUAL_LIMIT)
    }
}

/// Which values `bib resolve` takes for verbatim ones.
#[derive(Debug, Clone, Copy, Default, PartialEq, Eq)]
pub enum Verbatim {
    #[default]
    None,
    All,
    /// Those of the fields that the Rust lists.
    Names,
}

/// How `bib resolve` is asked.
#[derive(Debug, Clone, Default, PartialEq, Eq)]
pub struct Ways {
    pub verbatim: Verbatim,
    /// The English months are known.
    pub english: bool,
    /// The file is read piece by piece.
    pub salvage: bool,
    pub limit: Limit,
    pub strings: Vec<Source>,
}

/// How `bib show` is asked.
#[derive(Debug, Clone, Default, PartialEq, Eq)]
pub struct Showing {
    /// Warnings make the exit status 1 too.
    pub strict: bool,
    /// With the line and column of each entry, field and name.
    pub places: bool,
    /// As JSON.
    pub json: bool,
    /// Titles in sentence case.
    pub sentence: bool,
    pub limit: Limit,
    pub strings: Vec<Source>,
}

/// How `bib write` is asked.
#[derive(Debug, Clone, Default, PartialEq, Eq)]
pub struct Writing {
    /// The entries that are written; all where there are none.
    pub only: Vec<OsString>,
    /// The file that is written, in place of standard output.
    pub to: Option<PathBuf>,
    /// A field that cannot be resolved is written as it stands in the file.
    pub keep: bool,
    /// Warnings make the exit status 1 too.
    pub strict: bool,
    pub limit: Limit,
    pub strings: Vec<Source>,
}

/// What is asked for.
#[derive(Debug, Clone, PartialEq, Eq)]
pub enum Words {
    Help,
    Version,
    List,
    Check(Asked, Vec<Source>),
    /// The entries of a file, or those of these keys.
    Show(Showing, Source, Vec<OsString>),
    Write(Writing, Source),
    Resolve(Ways, Source),
    One(Work, Source),
}

const WORKS: [&str; 8] = [
    "check", "show", "write", "resolve", "rows", "salvage", "pack", "unpack",
];

const OPTIONS: [&str; 12] = [
    "--allow",
    "--deny",
    "--strict",
    "--all",
    "--no-resolve",
    "--list",
    "--json",
    "--quiet",
    "--color",
    "--limit",
    "--strings",
    "--help",
];

pub fn parse(mut words: impl Iterator<Item = OsString>) -> Result<Words, Trouble> {
    let Some(first) = words.next() else {
        return Err(Trouble::Words("nothing was asked".into()));
    };
    match first.to_str() {
        Some("--help" | "-h" | "help") => Ok(Words::Help),
        Some("--version" | "-V") => Ok(Words::Version),
        Some("check") => check(words),
        Some("show") => show(words),
        Some("resolve") => resolve(words),
        Some("write") => write(words),
        Some("rows") => one("rows", words, |source| Words::One(Work::Rows, source)),
        Some("salvage") => one("salvage", words, |source| Words::One(Work::Salvage, source)),
        Some("pack") => one("pack", words, |source| Words::One(Work::Pack, source)),
        Some("unpack") => one("unpack", words, |source| Words::One(Work::Unpack, source)),
        _ => Err(unknown_work(&first)),
    }
}

/// Work on one file that has no options.
fn one(
    work: &str,
    words: impl Iterator<Item = OsString>,
    asked: impl FnOnce(Source) -> Words,
) -> Result<Words, Trouble> {
    let mut rest = Rest::of(words);
    match rest.next_option().as_deref() {
        None => Ok(asked(rest.source(work)?)),
        Some("--help" | "-h") => Ok(Words::Help),
        Some(option) => Err(unknown(option, &["--help"])),
    }
}

/// The first word is the file, and those behind it are keys.
fn show(words: impl Iterator<Item = OsString>) -> Result<Words, Trouble> {
    let mut rest = Rest::of(words);
    let mut showing = Showing::default();
    while let Some(option) = rest.next_option() {
        let (name, value) = parts(&option);
        match (name, &value) {
            ("--limit", _) => showing.limit = rest.limit(value)?,
            ("--strings", _) => showing.strings.push(rest.strings(value)?),
            ("--strict", None) => showing.strict = true,
            ("--places", None) => showing.places = true,
            ("--json", None) => showing.json = true,
            ("--sentence", None) => showing.sentence = true,
            ("--help" | "-h", None) => return Ok(Words::Help),
            _ => {
                let known = [
                    "--places",
                    "--json",
                    "--sentence",
                    "--strict",
                    "--limit",
                    "--strings",
                    "--help",
                ];
                return Err(unknown(&option, &known));
            }
        }
    }
    let mut words = rest.files.into_iter();
    let source = words.next().map_or(Source::Stdin, Source::of);
    read_once(&showing.strings, [&source])?;
    Ok(Words::Show(showing, source, words.collect()))
}

fn write(words: impl Iterator<Item = OsString>) -> Result<Words, Trouble> {
    let mut rest = Rest::of(words);
    let mut writing = Writing::default();
    while let Some(option) = rest.next_option() {
        let (name, value) = parts(&option);
        match (name, &value) {
            ("--limit", _) => writing.limit = rest.limit(value)?,
            ("--strings", _) => writing.strings.push(rest.strings(value)?),
            ("--only", _) => writing.only.extend(rest.keys(value)?),
            ("--output" | "-o", _) => writing.to = Some(rest.path(name, value)?),
            ("--keep", None) => writing.keep = true,
            ("--strict", None) => writing.strict = true,
            ("--help" | "-h", None) => return Ok(Words::Help),
            _ => {
                let known = [
                    "--only",
                    "--output",
                    "--keep",
                    "--strict",
                    "--limit",
                    "--strings",
                    "--help",
                ];
                return Err(unknown(&option, &known));
            }
        }
    }
    let source = rest.source("write")?;
    read_once(&writing.strings, [&source])?;
    Ok(Words::Write(writing, source))
}

fn resolve(words: impl Iterator<Item = OsString>) -> Result<Words, Trouble> {
    let mut rest = Rest::of(words);
    let mut ways = Ways::default();
    while let Some(option) = rest.next_option() {
        let (name, value) = parts(&option);
        match (name, &value) {
            ("--verbatim", _) => ways.verbatim = rest.verbatim(value)?,
            ("--months", _) => ways.english = rest.months(value)?,
            ("--limit", _) => ways.limit = rest.limit(value)?,
            ("--strings", _) => ways.strings.push(rest.strings(value)?),
            ("--salvage", None) => ways.salvage = true,
            ("--help" | "-h", None) => return Ok(Words::Help),
            _ => {
                let known = [
                    "--verbatim",
                    "--months",
                    "--salvage",
                    "--limit",
                    "--strings",
                    "--help",
                ];
                return Err(unknown(&option, &known));
            }
        }
    }
    let source = rest.source("resolve")?;
    read_once(&ways.strings, [&source])?;
    Ok(Words::Resolve(ways, source))
}

fn check(words: impl Iterator<Item = OsString>) -> Result<Words, Trouble> {
    let mut rest = Rest::of(words);
    let mut asked = Asked::default();
    while let Some(option) = rest.next_option() {
        let (name, value) = parts(&option);
        match (name, &value) {
            ("--allow", _) => asked.levels.allowed.extend(rest.lints(name, value)?),
            ("--deny", _) => asked.levels.denied.extend(rest.lints(name, value)?),
            ("--color", _) => asked.color = rest.color(value)?,
            ("--limit", _) => asked.limit = rest.limit(value)?,
            ("--strings", _) => asked.strings.push(rest.strings(value)?),
            ("--strict", None) => asked.levels.strict = true,
            ("--all", None) => asked.all = true,
            ("--no-resolve", None) => asked.no_resolve = true,
            ("--json", None) => asked.json = true,
            ("--quiet" | "-q", None) => asked.quiet = true,
            ("--list", None) => return Ok(Words::List),
            ("--help" | "-h", None) => return Ok(Words::Help),
            _ => return Err(unknown(&option, &OPTIONS)),
        }
    }
    let sources = rest.sources();
    read_once(&asked.strings, &sources)?;
    Ok(Words::Check(asked, sources))
}

/// Standard input cannot lend definitions and be read besides.
fn read_once<'a>(
    strings: &'a [Source],
    sources: impl IntoIterator<Item = &'a Source>,
) -> Result<(), Trouble> {
    let is_stdin = |source: &&Source| **source == Source::Stdin;
    let lent = strings.iter().filter(is_stdin).count();
    if lent > 0 && lent + sources.into_iter().filter(is_stdin).count() > 1 {
        return Err(Trouble::Words("standard input is read only once".into()));
    }
    Ok(())
}

/// The name of an option, and what stands behind its "=".
fn parts(option: &str) -> (&str, Option<String>) {
    match option.split_once('=') {
        Some((name, value)) => (name, Some(value.to_string())),
        None => (option, None),
    }
}

/// The words behind the first: options, and files among them.
struct Rest<I> {
    words: I,
    /// After `--` every word is a file.
    is_over: bool,
    files: Vec<OsString>,
    /// The last option, byte by byte.
    option: OsString,
}

impl<I: Iterator<Item = OsString>> Rest<I> {
    fn of(words: I) -> Self {
        Self {
            words,
            is_over: false,
            files: Vec::new(),
            option: OsString::new(),
        }
    }

    /// The next option; the files before it are kept.
    fn next_option(&mut self) -> Option<String> {
        loop {
            let word = self.words.next()?;
            let is_option = word != "-" && word.as_encoded_bytes().starts_with(b"-");
            if self.is_over || !is_option {
                self.files.push(word);
            } else if word == "--" {
                self.is_over = true;
            } else {
                self.option = word;
                return Some(self.option.to_string_lossy().into_owned());
            }
        }
    }

    /// All sources; standard input where there are none.
    fn sources(self) -> Vec<Source> {
        if self.files.is_empty() {
            return vec![Source::Stdin];
        }
        self.files.into_iter().map(Source::of).collect()
    }

    /// The one source of a work.
    fn source(self, work: &str) -> Result<Source, Trouble> {
        let one = <[Source; 1]>::try_from(self.sources());
        let [source] = one.map_err(|_| Trouble::Words(format!("`bib {work}` takes one file")))?;
        Ok(source)
    }

    /// What an option is given, behind its "=" or as the next word.
    fn value(&mut self, name: &str, value: Option<String>) -> Result<String, Trouble> {
        let next = || {
            self.words
                .next()
                .map(|word| word.to_string_lossy().into_owned())
        };
        let missing = || Trouble::Words(format!("`{name}` wants a word behind it"));
        value.or_else(next).ok_or_else(missing)
    }

    /// Names of lints, with commas between them.
    fn lints(&mut self, name: &str, value: Option<String>) -> Result<Vec<Lint>, Trouble> {
        let names = LINTS.each_ref().map(|about| about.name);
        let value = self.value(name, value)?;
        let named = |name| Lint::named(name).ok_or_else(|| unknown(name, &names));
        value.split(',').map(named).collect()
    }

    fn verbatim(&mut self, value: Option<String>) -> Result<Verbatim, Trouble> {
        match self.value("--verbatim", value)?.as_str() {
            "none" => Ok(Verbatim::None),
            "all" => Ok(Verbatim::All),
            "names" => Ok(Verbatim::Names),
            other => Err(unknown(other, &["none", "all", "names"])),
        }
    }

    /// Whether the English months are to be known.
    fn months(&mut self, value: Option<String>) -> Result<bool, Trouble> {
        match self.value("--months", value)?.as_str() {
            "none" => Ok(false),
            "english" => Ok(true),
            other => Err(unknown(other, &["none", "english"])),
        }
    }

    /// The name of a file, which need not be UTF-8.
    fn path(&mut self, name: &str, value: Option<String>) -> Result<PathBuf, Trouble> {
        let missing = || Trouble::Words(format!("`{name}` wants a file behind it"));
        let bytes = self.option.as_bytes();
        let equals = bytes.iter().position(|byte| *byte == b'=');
        let behind = equals.map(|equals| OsStr::from_bytes(&bytes[equals + 1..]).into());
        let path: Option<PathBuf> = behind.filter(|_| value.is_some());
        let next = || self.words.next().map(PathBuf::from);
        path.or_else(next).ok_or_else(missing)
    }

    /// A file that lends definitions.
    fn strings(&mut self, value: Option<String>) -> Result<Source, Trouble> {
        let path = self.path("--strings", value)?;
        Ok(Source::of(path.into_os_string()))
    }

    /// Keys, with commas between them: no key has one.
    fn keys(&mut self, value: Option<String>) -> Result<Vec<OsString>, Trouble> {
        let value = self.value("--only", value)?;
        let keys = value.split(',').filter(|key| !key.is_empty());
        Ok(keys.map(OsString::from).collect())
    }

    fn limit(&mut self, value: Option<String>) -> Result<Limit, Trouble> {
        let value = self.value("--limit", value)?;
        let bytes = value.parse().map(Limit);
        let word = shown::name(value.as_bytes());
        bytes.map_err(|_| Trouble::Words(format!("`{word}` is no number of bytes")))
    }

    fn color(&mut self, value: Option<String>) -> Result<Color, Trouble> {
        let value = self.value("--color", value)?;
        Color::named(&value).ok_or_else(|| unknown(&value, &Color::NAMES))
    }
}

/// A word that is not known, and the one that may have been meant.
fn unknown(word: &str, known: &[&str]) -> Trouble {
    let near = nearest(word, known.iter().copied());
    let near = near.map(|near| format!(", did you mean `{near}`?"));
    let word = shown::name(word.as_bytes());
    Trouble::Words(format!("`{word}` is not known{}", near.unwrap_or_default()))
}

/// The first word may be a file.
fn unknown_work(word: &OsString) -> Trouble {
    let path = std::path::Path::new(word);
    if path.extension().is_some_and(|end| end == "bib") || path.exists() {
        let name = shown::name(word.as_encoded_bytes());
        return Trouble::Words(format!(
            "`{name}` is no work to do, did you mean `bib check {name}`?"
        ));
    }
    let known = [&WORKS[..], &["--help", "--version"]].concat();
    unknown(&word.to_string_lossy(), &known)
}
