//! `bib resolve`: for scripts. Every value of a file, resolved, in lines of words, numbers and texts in
//! hex.

use std::io::{self, Write};

use bib::check::without_damage;
use bib::{
    is_verbatim_field, Kind, Lent, LentPlace, Reason, Refusal, ResolvedFile, ResolvedValue, Row,
    Rows, ENGLISH_MONTHS, LENT,
};

use crate::lending::Strings;
use crate::print;
use crate::source::Source;
use crate::words::{Verbatim, Ways};
use crate::{Status, Trouble};

/// The numbers of a chunk row.
pub const CHUNK: usize = 5;

pub fn resolve(ways: &Ways, source: &Source, out: &mut impl Write) -> Result<Status, Trouble> {
    let strings = Strings::to(source, &ways.strings)?;
    let file = source.file()?;
    match resolved(ways, &strings.lent, &file, out) {
        Ok(status) => Ok(status),
        Err(Stop::Output(error)) => Err(error.into()),
        Err(Stop::Refused(refusal)) if refusal.reason == Reason::NoRoom => {
            Err(Trouble::Input(source.beyond_memory("resolve")))
        }
        Err(Stop::Refused(refusal)) => {
            writeln!(out, "{}", print::refused(&refusal))?;
            if refusal.reason == Reason::TooLong {
                strings.too_long(source, &file);
            }
            Ok(Status::Findings)
        }
    }
}

/// Why not all values were printed.
enum Stop {
    Refused(Refusal),
    Output(io::Error),
}

impl From<Refusal> for Stop {
    fn from(refusal: Refusal) -> Self {
        Self::Refused(refusal)
    }
}

impl From<io::Error> for Stop {
    fn from(error: io::Error) -> Self {
        Self::Output(error)
    }
}

/// Prints every value. One that is refused stops no other, but the exit status says it.
fn resolved(ways: &Ways, lent: &Lent, file: &[u8], out: &mut impl Write) -> Result<Status, Stop> {
    let rows = if ways.salvage {
        bib::salvage(file)?
    } else {
        bib::read(file)?
    };
    let resolved = values(ways, lent, file, &rows)?;
    let mut answers = resolved.iter();
    let (mut name, mut outer) = (None, None);
    let mut status = Status::Sound;
    for row in rows.iter() {
        match row.kind {
            Kind::Entry | Kind::Damage => outer = Some(row),
            Kind::Key => entry(file, outer, row, out)?,
            Kind::Cause => {
                damaged(outer, row, out)?;
                status = Status::Findings;
            }
            Kind::FieldName | Kind::DefinitionName => name = Some(row),
            Kind::Value => {
                head(file, name, row, out)?;
                match answers.next() {
                    Some(Ok(value)) => chunks(value, lent, out)?,
                    Some(Err(refusal)) => {
                        refused(&refusal, lent, out)?;
                        status = Status::Findings;
                    }
                    None => {}
                }
            }
            _ => {}
        }
    }
    Ok(status)
}

/// All values resolved as it was asked for. Damaged pieces count as blanks.
fn values(ways: &Ways, lent: &Lent, file: &[u8], rows: &Rows) -> Result<ResolvedFile, Refusal> {
    let flags = flags(ways.verbatim, file, rows)?;
    let sound = without_damage(file, rows)?;
    let months = if ways.english {
        &ENGLISH_MONTHS[..]
    } else {
        &[]
    };
    bib::resolve_file_lent(ways.limit.0, lent, &sound, rows, &flags, months)
}

fn flags(verbatim: Verbatim, file: &[u8], rows: &Rows) -> Result<Vec<bool>, Refusal> {
    let mut flags = bib::verbatim_flags(file, rows, is_verbatim_field)?;
    match verbatim {
        Verbatim::None => flags.fill(false),
        Verbatim::All => flags.fill(true),
        Verbatim::Names => {}
    }
    Ok(flags)
}

/// The key of an entry, and where the entry stands.
fn entry(file: &[u8], entry: Option<Row>, key: Row, out: &mut impl Write) -> io::Result<()> {
    let place = entry.map_or([0, 0], |row| [row.start as u32, row.end as u32]);
    line("entry", &[], Some(&file[key.span()]), &place, out)
}

/// A damaged piece: the number of its refusal, and its bytes.
fn damaged(piece: Option<Row>, cause: Row, out: &mut impl Write) -> io::Result<()> {
    let place = piece.map_or([0, 0], |row| [row.start as u32, row.end as u32]);
    line("damaged", &[cause.detail], None, &place, out)
}

/// Of what the value is, and where it stands.
fn head(file: &[u8], name: Option<Row>, value: Row, out: &mut impl Write) -> io::Result<()> {
    let Some(name) = name else {
        return Ok(());
    };
    let word = match name.kind {
        Kind::FieldName => "field",
        _ => "def",
    };
    let text = &file[name.span()];
    let place = [value.start as u32, value.end as u32];
    line(word, &[], Some(text), &place, out)
}

/// What the value is resolved to: its chunks, and how they are written.
fn chunks(value: ResolvedValue, lent: &Lent, out: &mut impl Write) -> Result<(), Stop> {
    let ResolvedValue { text, rows, names } = value;
    line("names", &[names as u32], None, &[], out)?;
    let text = text.as_bytes();
    for row in rows.chunks_exact(CHUNK) {
        let part = &text[row[1] as usize..row[2] as usize];
        head_of_line("chunk", &row[..1], Some(part), out)?;
        places(&row[3..], lent, out)?;
    }
    let formatted = bib::format_verbatim(text, rows)?;
    line("verbatim", &[], Some(formatted.as_bytes()), &[], out)?;
    let sentence = bib::format_sentence(text, rows)?;
    line("sentence", &[], Some(sentence.as_bytes()), &[], out)?;
    for (word, is_verbatim) in [("bib0", false), ("bib1", true)] {
        let written = bib::to_biblatex_string(text, rows, is_verbatim)?;
        line(word, &[], Some(written.as_bytes()), &[], out)?;
    }
    Ok(())
}

/// Why a value is refused.
fn refused(refusal: &Refusal, lent: &Lent, out: &mut impl Write) -> io::Result<()> {
    head_of_line("refused", &[refusal.reason.number()], None, out)?;
    places(&[refusal.start as u32, refusal.end as u32], lent, out)
}

/// Places to the end of a line. One in the definitions that a file lends has the number of that before
/// it, the first being 1.
fn places(all: &[u32], lent: &Lent, out: &mut impl Write) -> io::Result<()> {
    for place in all {
        let at = *place as usize;
        if at < LENT {
            numbers(&[*place], out)?;
        } else {
            let LentPlace { lender, place } = lent.place(at);
            write!(out, " {}:{place}", lender + 1)?;
        }
    }
    out.write_all(b"\n")
}

/// A line: a word, numbers, a text in hex behind an `x`, and numbers.
fn line(
    word: &str,
    before: &[u32],
    text: Option<&[u8]>,
    behind: &[u32],
    out: &mut impl Write,
) -> io::Result<()> {
    head_of_line(word, before, text, out)?;
    numbers(behind, out)?;
    out.write_all(b"\n")
}

fn head_of_line(
    word: &str,
    before: &[u32],
    text: Option<&[u8]>,
    out: &mut impl Write,
) -> io::Result<()> {
    out.write_all(word.as_bytes())?;
    numbers(before, out)?;
    if let Some(text) = text {
        out.write_all(b" x")?;
        hex(text, out)?;
    }
    Ok(())
}

fn numbers(all: &[u32], out: &mut impl Write) -> io::Result<()> {
    for number in all {
        let mut digits = [0; 10];
        out.write_all(b" ")?;
        out.write_all(print::decimal(*number, &mut digits))?;
    }
    Ok(())
}

/// Two digits for each byte, in small letters. A text may be long, so that no copy is made of it.
fn hex(text: &[u8], out: &mut impl Write) -> io::Result<()> {
    const DIGITS: &[u8; 16] = b"0123456789abcdef";
    const PART: usize = 256;
    for part in text.chunks(PART) {
        let mut digits = [0; 2 * PART];
        for (two, byte) in digits.chunks_exact_mut(2).zip(part) {
            two.copy_from_slice(&[
                DIGITS[usize::from(byte >> 4)],
                DIGITS[usize::from(byte & 15)],
            ]);
        }
        out.write_all(&digits[..2 * part.len()])?;
    }
    Ok(())
}
