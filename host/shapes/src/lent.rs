//! What the proved calls are lent, which is kept between calls: a value is short, and to allocate anew
//! for each would take longer than to resolve it.

use std::cell::RefCell;

use proved::{Answer, File, Lent, Resolved};

use crate::chunk::{Chunk, Chunks};
use crate::raw::{ParseError, ParseErrorKind, Token};
use crate::{Span, Spanned};

/// The numbers of a row and of a chunk row.
pub const ROW_NUMBERS: usize = 4;
const CHUNK_NUMBERS: usize = 5;

const NO_ROOM: u32 = 16;

/// More text than this is refused whatever is lent: the numbers of a chunk row have 32 bits (`mostNumber` of
/// crates/literal/specs/Rows.antt).
const MOST_TEXT: usize = 4_294_967_295;

/// What a call is refused with: 01's number and place.
pub struct Refusal {
    pub number: u32,
    pub span: Span,
}

impl Refusal {
    /// Of an answer whose number is not 0.
    fn of(number: u32, start: u64, end: u64) -> Self {
        let span = start as usize..end as usize;
        Self { number, span }
    }

    /// The same at other places.
    pub fn moved(self, place: impl Fn(usize) -> usize) -> Self {
        let span = place(self.span.start)..place(self.span.end);
        Self { span, ..self }
    }

    /// As an error, where the place is one of the source and the name that is refused is this one.
    pub fn named(self, name: &str) -> ParseError {
        let kind = match self.number {
            1 => ParseErrorKind::TooLong,
            3 => ParseErrorKind::UnexpectedEof,
            4 => ParseErrorKind::Expected(Token::Identifier),
            5 => ParseErrorKind::Expected(Token::OpeningBrace),
            6 => ParseErrorKind::Expected(Token::ClosingBrace),
            7 => ParseErrorKind::Expected(Token::Comma),
            8 => ParseErrorKind::Expected(Token::QuotationMark),
            9 => ParseErrorKind::Expected(Token::Equals),
            10 => ParseErrorKind::Unexpected(Token::DecimalPoint),
            11 => ParseErrorKind::Unexpected(Token::ClosingBrace),
            12 => ParseErrorKind::UnknownAbbreviation(name.into()),
            13 => ParseErrorKind::CyclicAbbreviation(name.into()),
            14 => ParseErrorKind::TooDeep,
            15 => ParseErrorKind::TooManyNames,
            number => unreachable!("text is UTF-8, rows are sound and there is room, but {number}"),
        };
        let span = self.span;
        ParseError { span, kind }
    }

    /// As an error of reading, which knows no names.
    pub fn of_source(self) -> ParseError {
        self.named("")
    }
}

/// The rows of a source, which has at most one more than bytes.
pub fn read(source: &[u8]) -> Result<Vec<u32>, Refusal> {
    let mut rows = vec![0; (source.len() + 1) * ROW_NUMBERS];
    let answer = proved::read(source, &mut rows);
    if answer.number != 0 {
        return Err(Refusal::of(answer.number, answer.start, answer.end));
    }
    rows.truncate(answer.count as usize * ROW_NUMBERS);
    Ok(rows)
}

/// What is lent to calls that resolve and that write.
struct Room {
    scratch: Vec<u8>,
    chunks: Vec<u32>,
    text: Vec<u8>,
    written: Vec<u8>,
}

thread_local! {
    static ROOM: RefCell<Room> = RefCell::new(Room {
        scratch: vec![0; proved::LEAST_SCRATCH],
        chunks: vec![0; CHUNK_NUMBERS * 64],
        text: vec![0; 1_024],
        written: Vec::new(),
    });
}

/// What to resolve.
pub enum Wanted<'a> {
    /// A literal, alone.
    Literal(&'a str),
    /// The value in this row of a file.
    Value(File<'a>, usize),
}

/// Resolves. The call's places are bytes of the file that it is lent; `place` says where such a byte comes from,
/// and the chunks have their spans there. A refusal has the call's place.
pub fn resolve(
    wanted: &Wanted,
    is_verbatim: bool,
    place: impl Fn(usize) -> usize,
) -> Result<Chunks, Refusal> {
    ROOM.with_borrow_mut(|room| {
        let answer = room.resolve(wanted, is_verbatim.into());
        if answer.number != 0 {
            return Err(Refusal::of(answer.number, answer.start, answer.end));
        }
        let text = utf8(&room.text[..answer.bytes as usize]);
        let rows = room.chunks.chunks_exact(CHUNK_NUMBERS);
        let chunk = |row: &[u32]| {
            let [from, to, start, end] = [1, 2, 3, 4].map(|n| row[n] as usize);
            let chunk = Chunk::of(row[0], &text[from..to]);
            Spanned::new(chunk, place(start)..place(end))
        };
        Ok(rows.take(answer.count as usize).map(chunk).collect())
    })
}

impl Room {
    /// The answer, in as much room as it needs: that is not known before names are resolved.
    fn resolve(&mut self, wanted: &Wanted, verbatim: u32) -> Resolved {
        loop {
            let mut lent = Lent {
                scratch: &mut self.scratch,
                chunks: &mut self.chunks,
                text: &mut self.text,
            };
            let answer = match *wanted {
                Wanted::Literal(text) => {
                    let file = text.as_bytes();
                    proved::resolve_literal(file, 0, file.len(), verbatim, &mut lent)
                }
                Wanted::Value(file, which) => {
                    proved::resolve_field(file, which, verbatim, &mut lent)
                }
            };
            if answer.number != NO_ROOM || self.text.len() >= MOST_TEXT {
                return answer;
            }
            self.chunks.resize(4 * self.chunks.len(), 0);
            self.text.resize(4 * self.text.len(), 0);
        }
    }
}

/// How chunks are written.
#[derive(Clone, Copy)]
pub enum Way {
    Sentence,
    Verbatim,
    /// As a BibLaTeX string, for a verbatim field or another.
    Biblatex {
        is_verbatim: bool,
    },
}

impl Way {
    /// As how many bytes each byte of a text is written at most: in sentence case a character of two bytes
    /// may become three of two bytes each, and in a BibLaTeX string each may get a backslash.
    fn each(self) -> usize {
        match self {
            Self::Sentence => 3,
            Self::Verbatim => 1,
            Self::Biblatex { .. } => 2,
        }
    }

    fn write(self, text: &[u8], rows: &[u32], bytes: &mut [u8]) -> Answer {
        match self {
            Self::Sentence => proved::format_sentence(text, rows, bytes),
            Self::Verbatim => proved::format_verbatim(text, rows, bytes),
            Self::Biblatex { is_verbatim } => {
                proved::to_biblatex_string(text, rows, is_verbatim.into(), bytes)
            }
        }
    }
}

/// Chunks, by kind and text, written in this way.
pub fn write(chunks: &[(u32, &str)], way: Way) -> String {
    let (mut text, mut rows) = (Vec::new(), Vec::new());
    for (kind, part) in chunks {
        let from = text.len();
        text.extend_from_slice(part.as_bytes());
        let places = [from, text.len()].map(|place| u32::try_from(place).expect("shorter text"));
        rows.extend([*kind, places[0], places[1], 0, 0]);
    }
    // Each chunk may get a mark before and after it, and all may have braces.
    let most = way.each() * text.len() + 2 * chunks.len() + 3;
    ROOM.with_borrow_mut(|room| {
        if room.written.len() < most {
            room.written.resize(most, 0);
        }
        let answer = way.write(&text, &rows, &mut room.written);
        assert_eq!(answer.number, 0, "the rows are sound, and there is room");
        utf8(&room.written[..answer.count as usize]).into()
    })
}

/// What the proved calls write is UTF-8.
fn utf8(bytes: &[u8]) -> &str {
    std::str::from_utf8(bytes).expect("the proved calls write UTF-8")
}
