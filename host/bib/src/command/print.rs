//! What is printed for scripts: rows and refusals as lines of numbers; and the help.

use std::io::{self, Write};

use bib::check::{ERRORS, LINTS};
use bib::{Refusal, Rows};

use crate::shown;
use crate::Status;

const HELP: &str = "\
Reads .bib files: every entry, name and field with its place and its resolved text, or what is
wrong and where.

  bib check [FILE..]    what is wrong in each file, with the line and the place underlined
  bib show [FILE [KEY..]]
                        the entries of a file, or those of the keys; names and accents resolved
  bib write [FILE]      each entry again as BibTeX, names and accents resolved
  bib resolve [FILE]    every value of a file, read strictly and resolved, for scripts
  bib rows [FILE]       the rows of a file, read strictly
  bib salvage [FILE]    the rows of a file, read piece by piece; damage stays where it is
  bib pack [FILE]       the rows of a file, read strictly, in seven bytes each
  bib unpack [FILE]     the rows out of such bytes
  bib --help            this text
  bib --version         the version, and what the library was made of

No FILE, or -, is standard input. Of a folder, `bib check` takes all .bib files below it. After --
every word is a file, or a key.

Errors of `bib check` are what is refused in reading and in resolving, with the number of the
refusal; warnings are what is read but surely not meant, with a name:

  --allow NAME,..       silences these warnings
  --deny NAME,..        makes errors of them
  --strict              exit status 1 for warnings too
  --all                 shows every warning, not only the first 100 of a name in a file
  --no-resolve          leaves out what only resolving refuses, as names without a definition
  --list                explains every warning and every error, with an example
  --json                a JSON object in a line for each finding, and nothing else
  --quiet, -q           no output, only the exit status
  --color WHEN          auto, always or never

`bib show` and `bib write` say what they cannot read or resolve as `bib check` does, `bib write` on
standard error; there both say which fields and entries are lost in the file, and `bib write` which
fields are read otherwise once they are written. Its last line there counts the entries that were
written, changed and left out. Options of the two, where --strict is as above:

  --places              of `bib show`: with the line and column of each entry, field and used name
  --json                of `bib show`: a JSON object in a line for each entry, with the bytes of its
                        fields, chunks and names; the page of the manual says what is in it
  --sentence            of `bib show`: titles in sentence case, so that `Maps of {M}ars and Its Moons` is
                        shown as `Maps of Mars and its moons`. Names of journals, series and events stay as
                        they are; the page of the manual says which fields are titles
  --only KEY,..         of `bib write`: writes the entries of these keys
  --output FILE, -o     of `bib write`: writes into this file, and not on standard output
  --keep                of `bib write`: an entry with a field that cannot be resolved is written, with
                        that field as it stands in the file

What would make the values of a file come to more than 32,000,000 bytes is not resolved, and said;
names that stand for long texts can multiply. For `bib check`, show, write and resolve:

  --limit BYTES         another number; a name counts as four, beside its text

A name that another file defines by @string is known where that file lends its definitions. For the
same four, and as often as wanted:

  --strings FILE        lends the definitions of FILE to every file given, as if they stood before it:
                        the last definition counts, so that a file's own ones win

All three know the English months, and take these fields for verbatim ones: file, doi, uri, eprint,
verba, verbb, verbc, pdf, url, urlraw. `bib resolve` knows what it is told:

  --verbatim WHICH      the verbatim values: none, all, or names for those of the fields above
  --months WHICH        the months that are known: none or english
  --salvage             reads piece by piece; a damaged one is a line `damaged NUMBER START END`

It prints a line `entry xKEY START END` for each entry, and `field xNAME START END` or `def xNAME
START END` for each value, and then `refused NUMBER START END`; or `names N`, `chunk KIND xTEXT START END` for each chunk, and how these are
written: `verbatim xTEXT`; `sentence xTEXT` in sentence case; and `bib0 xTEXT` and `bib1 xTEXT` as
BibTeX, not verbatim and verbatim. Names and texts are in hex behind the x. The kinds of chunks:
0 normal, 1 verbatim, 2 formula.

Rows are lines `kind detail start end`, and then `rows N`; places are bytes of the file. The kinds:
0 preamble with its quotes, 1 entry, 2 entry type, 3 key, 4 field name, 5 value, 6 literal, 7 name,
8 definition name, 9 damaged piece, 10 its cause, whose detail is the number of a refusal.
A refusal is a line `refused NUMBER START END`; `bib pack` has it on standard error. Where reading
stops, with 3 to 10, the bytes of the refusal or of the cause are the whole character that stands
there; where the file ends, or the piece, START and END are equal.

Exit status: 0 sound, or with warnings alone; 1 something is wrong in a file: it is refused or
damaged, a value cannot be resolved, or it has no such key; 2 a file cannot be read, the output cannot
be written or is closed, memory is short, or the words are not known.
";

/// Every lint and every error, what it means, and a file that has it.
pub fn list(out: &mut impl Write) -> io::Result<Status> {
    for about in &LINTS {
        explained(about.name, about.meaning, about.example, out)?;
        writeln!(out)?;
    }
    for (n, about) in ERRORS.iter().enumerate() {
        let between = if n > 0 { "\n" } else { "" };
        let number = format!(
            "{between}{}: {}",
            about.reason.number(),
            about.reason.what()
        );
        explained(&number, about.meaning, about.example, out)?;
    }
    Ok(Status::Sound)
}

fn explained(name: &str, meaning: &str, example: &str, out: &mut impl Write) -> io::Result<()> {
    writeln!(out, "{name}\n  {meaning}")?;
    for line in example.lines() {
        let line: String = shown::characters(line.as_bytes()).collect();
        writeln!(out, "    {line}")?;
    }
    Ok(())
}

pub fn help(out: &mut impl Write) -> io::Result<Status> {
    out.write_all(HELP.as_bytes())?;
    Ok(Status::Sound)
}

pub fn version(out: &mut impl Write) -> io::Result<Status> {
    writeln!(out, "bib {}", env!("CARGO_PKG_VERSION"))?;
    match proved::SOURCES {
        "" => writeln!(out, "a library that does not say what it was made of")?,
        sources => {
            writeln!(out, "library proved and compiled by {}", proved::KIT)?;
            writeln!(out, "of sources with the sum {sources}")?;
        }
    }
    Ok(Status::Sound)
}

pub fn refused(refusal: &Refusal) -> String {
    let Refusal { reason, start, end } = refusal;
    format!("refused {} {start} {end}", reason.number())
}

/// A line for each row, and one with their number.
pub fn rows(rows: &Rows, out: &mut impl Write) -> io::Result<()> {
    let mut line = Vec::new();
    let mut digits = [0; 10];
    for row in rows.numbers().chunks_exact(4) {
        line.clear();
        for (number, end) in row.iter().zip(*b"   \n") {
            line.extend_from_slice(decimal(*number, &mut digits));
            line.push(end);
        }
        out.write_all(&line)?;
    }
    writeln!(out, "rows {}", rows.len())
}

/// By hand: with `write!` a run that prints sixteen million rows takes half as long again.
pub fn decimal(number: u32, digits: &mut [u8; 10]) -> &[u8] {
    let mut first = digits.len();
    let mut rest = number;
    loop {
        first -= 1;
        digits[first] = b'0' + (rest % 10) as u8;
        rest /= 10;
        if rest == 0 {
            break;
        }
    }
    &digits[first..]
}
