//! Files that are not what they should be: in another encoding, or in another format.

use super::damage::{key_of, reason_of, whose};
use super::finding::{Code, Finding, Lint};
use super::guess::{guess, Likely};
use super::heads::head_at;
use super::text::key_name;
use super::trace::{Stage, Trace};
use super::{Checker, Lines, Stop};
use crate::{Kind, Reason, Refusal, Row, Rows};

/// An encoding that is guessed from bytes.
enum Guess {
    /// With the name that `iconv` has for it; UTF-32 has zeros too.
    Utf16(&'static str),
    Iso2022Jp,
    Other(Letters),
}

/// What is guessed of text that is not UTF-8.
struct Letters {
    /// None, one or two.
    likely: Vec<Likely>,
    /// Other text of the file is UTF-8.
    is_mixed: bool,
    /// The first place of which two make different characters.
    differs: Option<usize>,
}

/// What is known of a file's encoding.
pub(crate) struct Encoding {
    guess: Option<Guess>,
    /// The pieces that are damaged by it.
    pieces: usize,
    /// The first of them, and its cause.
    first: Option<(Row, Row)>,
}

impl Encoding {
    pub fn of(file: &[u8], rows: &Rows) -> Self {
        let utf16 = utf16(file);
        let pairs = rows.iter().zip(rows.iter().skip(1));
        let mut encoding = Self {
            guess: utf16.map(Guess::Utf16),
            pieces: 0,
            first: None,
        };
        for (piece, cause) in pairs.filter(|(piece, _)| piece.kind == Kind::Damage) {
            if utf16.is_some() || is_not_utf8(cause) {
                encoding.pieces += 1;
                encoding.first = encoding.first.or(Some((piece, cause)));
            }
        }
        if utf16.is_none() && has_escapes(file) {
            encoding.guess = Some(Guess::Iso2022Jp);
        } else if utf16.is_none() && encoding.pieces > 0 {
            encoding.guess = Some(Guess::Other(Letters::of(file, rows)));
        }
        encoding
    }

    pub fn is_utf16(&self) -> bool {
        matches!(self.guess, Some(Guess::Utf16(_)))
    }

    /// Whether a damaged piece is one that the finding about the encoding speaks of.
    pub fn explains(&self, cause: Row) -> bool {
        self.is_utf16() || is_not_utf8(cause)
    }
}

fn is_not_utf8(cause: Row) -> bool {
    cause.detail == Reason::NotUtf8.number()
}

/// By the byte order mark, or by many zeros: the name that `iconv` has for it. By its name alone it would
/// take a text without a mark for one of the machine's own order.
fn utf16(file: &[u8]) -> Option<&'static str> {
    if file.starts_with(b"\xff\xfe\0\0") || file.starts_with(b"\0\0\xfe\xff") {
        return Some("UTF-32");
    }
    if file.starts_with(b"\xff\xfe") || file.starts_with(b"\xfe\xff") {
        return Some("UTF-16");
    }
    let few = &file[..file.len().min(4096)];
    let zeros = |from: usize| few.iter().skip(from).step_by(2).filter(|byte| **byte == 0);
    let (even, odd) = (zeros(0).count(), zeros(1).count());
    // Of four bytes for each letter of ASCII three are zeros, of two one.
    let is_wide = (even + odd) * 8 > few.len() * 5;
    let name = match (is_wide, even > odd) {
        (true, _) if few.starts_with(b"\0\0") => "UTF-32BE",
        (true, _) => "UTF-32LE",
        (false, true) => "UTF-16BE",
        (false, false) => "UTF-16LE",
    };
    ((even + odd) * 4 > few.len()).then_some(name)
}

/// Those that switch to Japanese characters.
fn has_escapes(file: &[u8]) -> bool {
    let mut escapes = file.windows(3).filter(|three| three[0] == 0x1b);
    escapes.any(|three| matches!(&three[1..], b"$B" | b"$@" | b"(J"))
}

/// So many bytes are looked at: a file may have more of them than it takes to guess.
const ENOUGH: usize = 1 << 16;

impl Letters {
    fn of(file: &[u8], rows: &Rows) -> Self {
        let pieces = || {
            let pairs = rows.iter().zip(rows.iter().skip(1));
            pairs.filter(|(_, cause)| cause.kind == Kind::Cause && is_not_utf8(*cause))
        };
        let (mut text, mut rest, mut place) = (Vec::new(), Vec::new(), 0);
        for (piece, _) in pieces() {
            add(&mut rest, &file[place..piece.start]);
            add(&mut text, &file[piece.span()]);
            place = piece.end;
        }
        add(&mut rest, &file[place..]);
        let likely = guess(&text);
        // By chance a few characters of two bytes are UTF-8 too.
        let double = likely.first().filter(|likely| likely.is_double());
        let is_mixed = match double {
            Some(double) => !rest.is_empty() && !double.fits(&rest),
            None => !rest.is_empty() || is_mostly_utf8(&text),
        };
        let likely = match is_mixed {
            true => guess(&without_utf8(&text)),
            false => likely,
        };
        let differs = match likely.as_slice() {
            [one, other] => pieces().find_map(|(piece, _)| {
                let place = one.differs(other, &file[piece.span()])?;
                Some(piece.start + place)
            }),
            _ => None,
        };
        Self {
            likely,
            is_mixed,
            differs,
        }
    }

    /// What can be done, and how the line of this place, or one that two encodings make different, would
    /// read.
    fn hint(&self, lines: &Lines, place: usize) -> String {
        let shown = self.differs.unwrap_or(place);
        let line = lines.at(shown);
        let subject = match line.number == lines.number(place) {
            true => "it".to_string(),
            false => format!("line {}", line.number),
        };
        let place = shown.saturating_sub(line.begin);
        let named = |likely: &Likely| match self.read(likely, line.text, place) {
            Some(text) => format!("{}, in which {subject} reads `{text}`", likely.label),
            None => likely.label.to_string(),
        };
        let named: Vec<String> = self.likely.iter().map(named).collect();
        let (perhaps, tried) = (named.join(", or "), self.likely.iter());
        let tried = tried.map(|likely| format!("`iconv -f {} -t UTF-8`", likely.iconv));
        let tried = tried.collect::<Vec<_>>().join(" or ");
        match (self.is_mixed, self.likely.is_empty()) {
            (true, true) => format!("{REST_IS_UTF8}: write what is damaged here anew"),
            (true, false) => {
                format!("{REST_IS_UTF8}, so convert this part alone: perhaps it is {perhaps}")
            }
            (false, true) => UNKNOWN.into(),
            (false, false) => format!("perhaps it is {perhaps}: try {tried}"),
        }
    }

    /// The part of a line around a place as it would read, without blanks at its ends.
    fn read(&self, likely: &Likely, line: &[u8], place: usize) -> Option<String> {
        let mut first = likely.begin(line, place.saturating_sub(AROUND))?;
        let mut last = line.len().min(place + AROUND);
        let cut = |is_cut: bool| if is_cut { "…" } else { "" };
        let [before, behind] = [cut(first > 0), cut(last < line.len())];
        if !self.is_mixed {
            let text = likely.decoded(&line[first..last])?;
            return Some([before, text.trim(), behind].concat());
        }
        // No character of UTF-8 is cut, and none is decoded.
        while first < place && line[first] & 0xc0 == 0x80 {
            first += 1;
        }
        while last > place + 1 && !line[last - 1].is_ascii() && !behind.is_empty() {
            last -= 1;
        }
        let mut text = String::new();
        for chunk in line[first..last].utf8_chunks() {
            text += chunk.valid();
            text += &likely.decoded(chunk.invalid())?;
        }
        Some([before, text.trim(), behind].concat())
    }
}

const UNKNOWN: &str =
    "what encoding it is cannot be guessed; once it is known, `iconv -f NAME -t UTF-8` \
                       converts the file";

const REST_IS_UTF8: &str = "other text of the file is UTF-8";

/// Adds a part of a file that is not all ASCII, as far as it is looked at. A mark of UTF-8 counts for
/// nothing.
fn add(text: &mut Vec<u8>, part: &[u8]) {
    let part = part.strip_prefix(b"\xef\xbb\xbf").unwrap_or(part);
    if !part.is_ascii() {
        let room = ENOUGH.saturating_sub(text.len());
        text.extend_from_slice(&part[..part.len().min(room)]);
    }
}

/// Whether a text has more characters of UTF-8 beyond ASCII than bytes that are not UTF-8.
fn is_mostly_utf8(text: &[u8]) -> bool {
    let (mut valid, mut invalid) = (0, 0);
    for chunk in text.utf8_chunks() {
        valid += chunk.valid().chars().filter(|c| !c.is_ascii()).count();
        invalid += chunk.invalid().len();
    }
    valid > invalid
}

/// A text with a blank for each character of UTF-8 beyond ASCII.
fn without_utf8(text: &[u8]) -> Vec<u8> {
    let mut rest = Vec::new();
    for chunk in text.utf8_chunks() {
        let ascii = |c: char| if c.is_ascii() { c as u8 } else { b' ' };
        rest.extend(chunk.valid().chars().map(ascii));
        rest.extend_from_slice(chunk.invalid());
    }
    rest
}

/// So many bytes of a line are shown before the place, and behind it.
const AROUND: usize = 30;

impl Guess {
    fn hint(&self, lines: &Lines, place: usize) -> String {
        let name = match self {
            Self::Utf16(name) => *name,
            Self::Iso2022Jp => "ISO-2022-JP",
            Self::Other(letters) => return letters.hint(lines, place),
        };
        format!("perhaps it is {name}: try `iconv -f {name} -t UTF-8`")
    }
}

impl<E, S: FnMut(&Finding, &Lines) -> Result<(), E>> Checker<'_, S> {
    /// What is said of the encoding before all else: the first piece that it damages, how many others there
    /// are, and a guess.
    pub(crate) fn about_encoding(&mut self) -> Result<(), Stop<E>> {
        let Some((piece, cause)) = self.encoding.first else {
            return self.about_escapes();
        };
        let lines = self.lines()?;
        let guess = self.encoding.guess.as_ref();
        let hint = guess.map(|guess| guess.hint(lines, cause.start));
        let (mut finding, _) = self.of_encoding(piece, cause)?;
        match self.encoding.pieces - 1 {
            0 => {}
            1 => finding.message += ", and in one more piece of the file",
            more => finding.message += &format!(", and in {more} more pieces of the file"),
        }
        self.say(finding.with_hint(hint))
    }

    /// Says that a piece is not UTF-8, unless it is the first, of which that was said; and answers where the
    /// entry begins that it is said of.
    pub(crate) fn not_utf8(&mut self, piece: Row, cause: Row) -> Result<usize, Stop<E>> {
        let (finding, at) = self.of_encoding(piece, cause)?;
        if self.encoding.first != Some((piece, cause)) {
            self.say(finding)?;
        }
        Ok(at)
    }

    /// What is said of one piece, and where the entry begins that it is in.
    fn of_encoding(&self, piece: Row, cause: Row) -> Result<(Finding, usize), Refusal> {
        let mut message = if is_not_utf8(cause) {
            Reason::NotUtf8.what().to_string()
        } else {
            "zeros between the characters".to_string()
        };
        let mut trace = Trace::of(self.file, piece.start..cause.start);
        let head = head_at(self.file, trace.at..piece.end);
        if trace.key.is_some() {
            // The bytes may stand in the key.
            trace.key = head.and_then(|head| head.key).or(trace.key);
        }
        message += &whose(&trace, self.lines()?, cause.start);
        let is_outside = trace.stage == Stage::Outside;
        let finding = Finding {
            code: Code::Refusal(reason_of(cause)),
            start: cause.start,
            end: cause.end,
            mark: cause.start,
            message,
            hint: None,
            key: key_of(&trace).filter(|_| !is_outside).map(key_name),
        };
        Ok((finding, if is_outside { piece.end } else { trace.at }))
    }

    /// Escape sequences are UTF-8, and read for what they are.
    fn about_escapes(&mut self) -> Result<(), Stop<E>> {
        let Some(guess @ Guess::Iso2022Jp) = &self.encoding.guess else {
            return Ok(());
        };
        let place = self.file.iter().position(|byte| *byte == 0x1b).unwrap_or(0);
        let hint = Some(guess.hint(self.lines()?, place));
        let message = "escape sequences of another encoding".to_string();
        let finding = Finding::lint(Lint::Encoding, place, place + 3, message);
        self.say(finding.with_hint(hint))
    }
}

/// A format that is not BibTeX.
#[derive(Debug, Clone, Copy, PartialEq, Eq)]
pub(crate) enum Format {
    Html,
    Json,
    Ris,
}

impl Format {
    /// By how the file begins.
    pub fn of(file: &[u8]) -> Option<Self> {
        let text = file.strip_prefix(b"\xef\xbb\xbf").unwrap_or(file);
        let text = text.trim_ascii_start();
        let after = |n: usize| {
            text.get(n..)
                .unwrap_or(b"")
                .trim_ascii_start()
                .first()
                .copied()
        };
        match text {
            [b'<', b'!' | b'?' | b'a'..=b'z' | b'A'..=b'Z', ..] => Some(Self::Html),
            [b'{', ..] if after(1) == Some(b'"') => Some(Self::Json),
            [b'[', ..] if matches!(after(1), Some(b'{' | b'"' | b'[')) => Some(Self::Json),
            [b'T', b'Y', b' ', b' ', b'-', ..] => Some(Self::Ris),
            _ => None,
        }
    }

    pub fn hint(self) -> String {
        let what = match self {
            Self::Html => "HTML or XML: perhaps a web page was saved in place of the file",
            Self::Json => "JSON, not BibTeX",
            Self::Ris => "RIS, not BibTeX",
        };
        format!("this looks like {what}")
    }
}
