//! The command `bib`: reads files, has the library read them, and prints what it says.

mod back;
mod check;
mod crossrefs;
mod cut;
mod defined;
mod entries;
mod errors;
mod excerpt;
mod folder;
mod json;
mod lending;
mod levels;
mod near;
mod print;
mod progress;
mod report;
mod resolve;
mod screen;
mod show;
mod shown;
mod source;
mod style;
mod system;
mod tally;
mod turns;
mod wanted;
mod width;
mod words;
mod write;

use std::env;
use std::io::{self, BufWriter, ErrorKind, Write};
use std::process::ExitCode;

use bib::{Kind, Reason};
use source::Source;
use system::is_stdout_closed;
use words::{Words, Work};

/// What a run comes to, as its exit status says it.
#[derive(Debug, Clone, Copy, PartialEq, Eq, PartialOrd, Ord)]
pub enum Status {
    Sound = 0,
    Findings = 1,
    Trouble = 2,
}

/// What keeps the command from its work.
pub enum Trouble {
    /// It was told something that it does not know.
    Words(String),
    /// Something cannot be read.
    Input(String),
    /// What it prints cannot be written.
    Output(io::Error),
}

impl From<io::Error> for Trouble {
    fn from(error: io::Error) -> Self {
        Self::Output(error)
    }
}

/// What a shell sees of a program that a closed pipe ends: 128 and the number of SIGPIPE.
const CLOSED_PIPE: u8 = 141;

/// So many bytes of output are kept before they are handed to the system: the findings of a file may
/// come to more than a gigabyte.
pub const BUFFER: usize = 1 << 16;

fn main() -> ExitCode {
    let done = words::parse(env::args_os().skip(1)).and_then(run);
    match done {
        Ok(status) => ExitCode::from(status as u8),
        Err(Trouble::Output(error)) if error.kind() == ErrorKind::BrokenPipe => {
            ExitCode::from(CLOSED_PIPE)
        }
        Err(trouble) => {
            say(&sentence(&trouble));
            ExitCode::from(Status::Trouble as u8)
        }
    }
}

fn sentence(trouble: &Trouble) -> String {
    match trouble {
        Trouble::Words(what) => {
            let end = if what.ends_with('?') { "" } else { ";" };
            format!("{what}{end} `bib --help` shows what can be asked")
        }
        Trouble::Input(what) => what.clone(),
        Trouble::Output(error) => format!("cannot write the output: {}", source::plain(error)),
    }
}

/// A sentence on standard error. Where that cannot be written either, the exit status is left.
pub fn say(sentence: &str) {
    let _ = writeln!(io::stderr(), "bib: {sentence}");
}

fn run(words: Words) -> Result<Status, Trouble> {
    let is_silent = match &words {
        Words::Check(asked, _) => asked.quiet,
        Words::Write(writing, _) => writing.to.is_some(),
        _ => false,
    };
    if is_stdout_closed() && !is_silent {
        return Err(Trouble::Output(io::Error::other("it is closed")));
    }
    let mut out = BufWriter::with_capacity(BUFFER, io::stdout().lock());
    let status = match words {
        Words::Help => print::help(&mut out)?,
        Words::Version => print::version(&mut out)?,
        Words::List => print::list(&mut out)?,
        Words::Check(asked, sources) => {
            // It prints from several threads.
            drop(out);
            return check::check(&asked, sources);
        }
        Words::Show(showing, source, keys) => show::show(&showing, &source, &keys, &mut out)?,
        Words::Write(writing, source) => write::write(&writing, &source, &mut out)?,
        Words::Resolve(ways, source) => resolve::resolve(&ways, &source, &mut out)?,
        Words::One(work, source) => one(work, &source, &mut out)?,
    };
    out.flush()?;
    Ok(status)
}

/// The work on one source.
fn one(work: Work, source: &Source, out: &mut impl Write) -> Result<Status, Trouble> {
    let answer = match work {
        Work::Rows => bib::read(&source.file()?),
        Work::Salvage => bib::salvage(&source.file()?),
        Work::Unpack => bib::unpack(&source.packed()?),
        Work::Pack => return pack(source, out),
    };
    match answer {
        Ok(rows) => {
            print::rows(&rows, out)?;
            let is_damaged = rows.iter().any(|row| row.kind == Kind::Damage);
            // The rows of salvage that `unpack` prints are what it was asked for.
            Ok(if is_damaged && work == Work::Salvage {
                Status::Findings
            } else {
                Status::Sound
            })
        }
        Err(refusal) if refusal.reason == Reason::NoRoom => Err(beyond_memory(work, source)),
        Err(refusal) => {
            writeln!(out, "{}", print::refused(&refusal))?;
            Ok(Status::Findings)
        }
    }
}

/// Room is lent for every answer, so that only memory can be short.
fn beyond_memory(work: Work, source: &Source) -> Trouble {
    let work = match work {
        Work::Rows => "read",
        Work::Salvage => "salvage",
        Work::Pack => "pack",
        Work::Unpack => "unpack",
    };
    Trouble::Input(source.beyond_memory(work))
}

fn pack(source: &Source, out: &mut impl Write) -> Result<Status, Trouble> {
    let packed = bib::read(&source.file()?).and_then(|rows| bib::pack(rows.numbers()));
    match packed {
        Ok(bytes) => {
            out.write_all(&bytes)?;
            Ok(Status::Sound)
        }
        Err(refusal) if refusal.reason == Reason::NoRoom => Err(beyond_memory(Work::Pack, source)),
        Err(refusal) => {
            // Standard output is for packed rows alone.
            writeln!(io::stderr(), "{}", print::refused(&refusal))?;
            Ok(Status::Findings)
        }
    }
}
