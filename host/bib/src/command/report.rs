//! A finding as it is printed.

use bib::check::{Code, Finding, Level, Lines};
use bib::Reason;

use crate::excerpt;
use crate::json::Object;
use crate::print::decimal;
use crate::shown;
use crate::source::Source;
use crate::style::Style;

/// How findings are printed.
pub struct Report<'a> {
    pub style: Style,
    /// The columns of a line.
    pub room: usize,
    pub json: bool,
    /// The files that lend definitions: a finding may be in one of them.
    pub lenders: &'a [Source],
}

/// Where a finding is.
pub struct Spot<'a> {
    pub source: &'a Source,
    pub line: usize,
    pub column: usize,
}

impl Report<'_> {
    /// Puts a finding, with the lines of the file that it is in: the source, or one that lends
    /// definitions. A file may have millions: nothing is allocated where it is put for people.
    pub fn finding(
        &self,
        source: &Source,
        finding: &Finding,
        level: Level,
        lines: &Lines,
        out: &mut Vec<u8>,
    ) {
        let spot = self.spot(source, finding, lines);
        self.bare(&spot, finding, level, out);
        if self.json {
            return;
        }
        if finding.code != Code::Refusal(Reason::TooLong) {
            self.excerpt(finding, level, lines, out);
        }
        if let Some(hint) = &finding.hint {
            out.extend_from_slice(b"  hint: ");
            shown::put_text(hint.as_bytes(), out);
            out.push(b'\n');
        }
    }

    /// A finding as an object of JSON.
    pub fn object(
        &self,
        source: &Source,
        finding: &Finding,
        level: Level,
        lines: &Lines,
    ) -> Object {
        json(&self.spot(source, finding, lines), finding, level)
    }

    /// Where a finding is: in the source, or in a file that lends definitions.
    fn spot<'s>(&'s self, source: &'s Source, finding: &Finding, lines: &Lines) -> Spot<'s> {
        let (line, column) = lines.line_and_column(finding.mark);
        let lender = lines.lender().map(|number| &self.lenders[number]);
        Spot {
            source: lender.unwrap_or(source),
            line,
            column,
        }
    }

    /// Puts a finding without its line.
    pub fn bare(&self, spot: &Spot, finding: &Finding, level: Level, out: &mut Vec<u8>) {
        if self.json {
            out.extend_from_slice(json(spot, finding, level).line().as_bytes());
        } else {
            self.headline(spot, finding, level, out);
        }
    }

    /// How many warnings of a name are not shown, and what shows them.
    pub fn left_out(&self, source: &Source, (name, count): (&str, usize), all: &str) -> String {
        let Style { bold, plain, .. } = self.style;
        let (colour, level) = (self.style.level(Level::Warning), Level::Warning.name());
        format!(
            "{bold}{source}:{plain} {colour}{level}:{plain} and {count} more; {all} shows every one ({name})\n"
        )
    }

    fn headline(&self, spot: &Spot, finding: &Finding, level: Level, out: &mut Vec<u8>) {
        let Style { bold, plain, .. } = self.style;
        put(&[bold], out);
        spot.source.put(out);
        for number in [spot.line, spot.column] {
            out.push(b':');
            put_number(number, out);
        }
        let colour = self.style.level(level);
        put(
            &[":", plain, " ", colour, level.name(), ":", plain, " "],
            out,
        );
        shown::put_text(finding.message.as_bytes(), out);
        out.extend_from_slice(b" (");
        match finding.code {
            Code::Refusal(reason) => put_number(reason.number() as usize, out),
            Code::Lint(lint) => put(&[lint.name()], out),
        }
        out.extend_from_slice(b")\n");
    }

    /// Puts the line, and below it marks under the whole character at which a person should look.
    fn excerpt(&self, finding: &Finding, level: Level, lines: &Lines, out: &mut Vec<u8>) {
        let line = lines.at(finding.mark);
        let place = finding.mark.saturating_sub(line.begin);
        let marks = excerpt::put(line.text, place, self.room, out);
        let (colour, plain) = (self.style.level(level), self.style.plain);
        put(&[colour, marks, plain, "\n"], out);
    }
}

fn put(parts: &[&str], out: &mut Vec<u8>) {
    for part in parts {
        out.extend_from_slice(part.as_bytes());
    }
}

/// A number that counts bytes, lines or characters of a file.
fn put_number(number: usize, out: &mut Vec<u8>) {
    out.extend_from_slice(decimal(number as u32, &mut [0; 10]));
}

/// An object that begins with the name of a file.
pub fn of_file(source: &Source) -> Object {
    let name = source.name();
    let object = Object::new().text("file", &String::from_utf8_lossy(name));
    if std::str::from_utf8(name).is_ok() {
        return object;
    }
    // By the text alone the file could not be found again.
    let digits = name.iter().map(|byte| format!("{byte:02x}"));
    object.text("file_hex", &digits.collect::<String>())
}

fn json(spot: &Spot, finding: &Finding, level: Level) -> Object {
    let object = of_file(spot.source)
        .number("line", spot.line)
        .number("column", spot.column)
        .number("start", finding.start)
        .number("end", finding.end);
    let object = match finding.code {
        Code::Refusal(reason) => object
            .number("number", reason.number() as usize)
            .text("name", reason.name()),
        Code::Lint(lint) => object.maybe("number", None).text("name", lint.name()),
    };
    object
        .text("level", level.name())
        .text("message", &finding.message)
        .maybe("hint", finding.hint.as_deref())
        .maybe("key", finding.key.as_deref())
}
