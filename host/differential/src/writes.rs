//! One text with rows of its chunks: the proved writers and the Rust's, with several rooms lent,
//! and everything compared.

use oracle::chunk::Chunk;
use oracle::{ChunksExt, Refusal, Spanned};
use proved::Answer;

use crate::judge::{self, Judge};
use crate::report::{self, Given};
use crate::room::Room;

/// Rooms lent where the input is refused: any room must give that refusal.
const ROOMS_AT_REFUSAL: [usize; 2] = [0, 33];

/// What stands behind the text and the rows in memory: a writer that looks past an end may find
/// there what was missing, or one thing more.
const BEHIND_TEXT: &[u8] = b"\x80\n {_";
const BEHIND_ROWS: &[u32] = &[0, 0, 0, 0, 0, 0];

/// Numbers that say that a field is verbatim: any but 0.
const FLAGS: [u32; 5] = [1, 2, 0x100, 0x8000_0000, u32::MAX];

#[derive(Debug, Clone, Copy)]
enum Writer {
    FormatVerbatim,
    FormatSentence,
    ToBiblatexString(u32),
}

/// Which writers are asked.
#[derive(Clone, Copy, PartialEq)]
pub enum Asked {
    /// `format_verbatim`, and `to_biblatex_string` for both kinds of fields.
    Plain,
    Sentences,
}

impl Writer {
    fn rust(self, chunks: &[Spanned<Chunk>]) -> String {
        match self {
            Self::FormatVerbatim => chunks.format_verbatim(),
            Self::FormatSentence => chunks.format_sentence(),
            Self::ToBiblatexString(verbatim) => chunks.to_biblatex_string(verbatim != 0),
        }
    }

    fn proved(self, text: &[u8], rows: &[u32], bytes: &mut [u8]) -> Answer {
        match self {
            Self::FormatVerbatim => proved::format_verbatim(text, rows, bytes),
            Self::FormatSentence => proved::format_sentence(text, rows, bytes),
            Self::ToBiblatexString(verbatim) => {
                proved::to_biblatex_string(text, rows, verbatim, bytes)
            }
        }
    }
}

pub struct Writes {
    asked: Asked,
    /// Copies of what is lent to be read, with what stands behind.
    text: Vec<u8>,
    rows: Vec<u32>,
    room: Room<u8>,
    /// Texts so far, for the flags to take turns.
    turn: usize,
}

impl Writes {
    pub fn new(asked: Asked) -> Self {
        Self {
            asked,
            text: Vec::new(),
            rows: Vec::new(),
            room: Room::new(),
            turn: 0,
        }
    }

    /// With just enough room alone.
    pub fn check_once(&mut self, judge: &mut Judge, text: &[u8], rows: &[u32]) {
        self.all(judge, text, rows, |need| vec![need]);
    }

    /// With just enough room, with one byte less and with some to spare.
    pub fn check(&mut self, judge: &mut Judge, text: &[u8], rows: &[u32]) {
        self.all(judge, text, rows, |need| {
            let less = need.checked_sub(1);
            less.into_iter().chain([need, need + 5]).collect()
        });
    }

    /// The same with every kind of room.
    pub fn check_rooms(&mut self, judge: &mut Judge, text: &[u8], rows: &[u32]) {
        self.all(judge, text, rows, |need| {
            let less = [0, 1, 2, need / 2].into_iter();
            let less = less.chain([3, 2, 1].map(|less| need.saturating_sub(less)));
            less.chain([0, 1, 2, 97].map(|more| need + more)).collect()
        });
    }

    fn all(
        &mut self,
        judge: &mut Judge,
        text: &[u8],
        rows: &[u32],
        rooms: fn(usize) -> Vec<usize>,
    ) {
        self.take(text, rows);
        let chunks = oracle::chunks(text, rows);
        for writer in self.writers() {
            match &chunks {
                Ok(chunks) => {
                    let written = writer.rust(chunks).into_bytes();
                    for room in rooms(written.len()) {
                        self.compare(judge, writer, Ok(&written), room);
                    }
                }
                Err(refusal) => {
                    for room in ROOMS_AT_REFUSAL {
                        self.compare(judge, writer, Err(*refusal), room);
                    }
                }
            }
        }
        if !self.input_is(text, rows) {
            judge.count(chunks.is_ok(), false);
            println!("a writer changed what it was lent to read");
        }
    }

    fn writers(&self) -> Vec<Writer> {
        if self.asked == Asked::Sentences {
            return vec![Writer::FormatSentence];
        }
        let flag = FLAGS[self.turn % FLAGS.len()];
        let biblatex = [0, flag].map(Writer::ToBiblatexString);
        [Writer::FormatVerbatim]
            .into_iter()
            .chain(biblatex)
            .collect()
    }

    fn take(&mut self, text: &[u8], rows: &[u32]) {
        self.turn += 1;
        self.text.clear();
        self.text.extend_from_slice(text);
        self.text.extend_from_slice(BEHIND_TEXT);
        self.rows.clear();
        self.rows.extend_from_slice(rows);
        self.rows.extend_from_slice(BEHIND_ROWS);
    }

    fn input_is(&self, text: &[u8], rows: &[u32]) -> bool {
        self.text.strip_prefix(text) == Some(BEHIND_TEXT)
            && self.rows.strip_prefix(rows) == Some(BEHIND_ROWS)
    }

    fn compare(
        &mut self,
        judge: &mut Judge,
        writer: Writer,
        rust: Result<&[u8], Refusal>,
        room: usize,
    ) {
        let expected = judge::expected(rust.map(<[u8]>::len), room);
        let written = &rust.unwrap_or_default()[..expected.count as usize];
        let text = &self.text[..self.text.len() - BEHIND_TEXT.len()];
        let rows = &self.rows[..self.rows.len() - BEHIND_ROWS.len()];
        let answer = writer.proved(text, rows, self.room.lend(room));
        let same = answer == expected && self.room.holds(written, room);
        if judge.count(expected.number == 0, same) {
            let name = format!("{writer:?} of b\"{}\" by numbers", text.escape_ascii());
            let given = Given {
                unit: "bytes",
                expected,
                written,
                answer,
            };
            report::packing(judge.cases, &name, room, rows, given);
            report::touched(&self.room, room, written.len());
        }
        self.room.renew(same, written.len());
    }
}
