//! One literal of a file: the proved call and the Rust, for a verbatim field and another, with
//! several rooms lent, and everything compared.

use oracle::Refusal;

use crate::judge::Judge;
use crate::lent::{rooms, unchanged, Expected, Held, Output, Rooms, Tried, BEHIND, FLAGS, SCRATCH};
use crate::report;

/// What a literal stands between in its file, by turns: what would go on the literal's last part, or
/// its first, if a resolver looked outside.
const CONTEXTS: [(&str, &str); 8] = [
    ("", ""),
    ("é", "}"),
    ("{", "e}"),
    ("\\", "{x}"),
    ("$", "$"),
    ("-", "-\n"),
    (" ", " }"),
    ("a", "\u{301}"),
];

/// Where a literal stands in its file, and what field it is of.
#[derive(Clone, Copy)]
pub struct Asked {
    pub span: (usize, usize),
    pub verbatim: u32,
    /// The length of the scratch.
    pub scratch: usize,
}

pub struct Resolves {
    file: Held<u8>,
    output: Output,
    /// Literals so far, for contexts, flags and rooms to take turns.
    turn: usize,
}

impl Resolves {
    pub fn new() -> Self {
        Self {
            file: Held::new(BEHIND),
            output: Output::new(),
            turn: 0,
        }
    }

    /// A literal, of a verbatim field and of another, with just enough room and with another.
    pub fn check(&mut self, judge: &mut Judge, literal: &str) {
        self.check_fields(judge, literal, None, Tried::One);
    }

    /// The same with just enough room alone.
    pub fn check_once(&mut self, judge: &mut Judge, literal: &str) {
        self.check_fields(judge, literal, None, Tried::No);
    }

    /// The same with every kind of room.
    pub fn check_rooms(&mut self, judge: &mut Judge, literal: &str) {
        self.check_fields(judge, literal, None, Tried::All);
    }

    /// A literal that is refused by 01 with 14, at this byte of the literal, if its field is not
    /// verbatim. The Rust knows no such refusal.
    pub fn check_too_deep(&mut self, judge: &mut Judge, literal: &str, brace: usize) {
        self.check_fields(judge, literal, Some(brace), Tried::One);
    }

    fn check_fields(
        &mut self,
        judge: &mut Judge,
        literal: &str,
        too_deep: Option<usize>,
        tried: Tried,
    ) {
        self.turn += 1;
        let (before, after) = CONTEXTS[self.turn % CONTEXTS.len()];
        let (from, to) = (before.len(), before.len() + literal.len());
        let file = [before, literal, after].concat();
        self.file.take(file.as_bytes());
        for verbatim in [0, FLAGS[self.turn % FLAGS.len()]] {
            let asked = Asked {
                span: (from, to),
                verbatim,
                scratch: SCRATCH[self.turn % SCRATCH.len()],
            };
            let expected = match too_deep {
                Some(brace) if verbatim == 0 => Err(Refusal {
                    number: 14,
                    start: (from + brace) as u32,
                    end: (from + brace + 1) as u32,
                }),
                _ => self.ask_the_rust(asked),
            };
            self.check_expected(judge, asked, &expected, tried);
        }
        unchanged(judge, self.file.is(file.as_bytes()));
    }

    /// Any places of any file, with any scratch: 01's order of refusals.
    pub fn check_file(&mut self, judge: &mut Judge, file: &[u8], asked: Asked) {
        self.turn += 1;
        self.file.take(file);
        let expected = self.ask_the_rust(asked);
        self.check_expected(judge, asked, &expected, Tried::One);
        unchanged(judge, self.file.is(file));
    }

    fn ask_the_rust(&self, asked: Asked) -> Expected {
        let file = self.file.lent();
        oracle::resolve_literal(file, asked.span, asked.verbatim != 0, asked.scratch)
    }

    fn check_expected(
        &mut self,
        judge: &mut Judge,
        asked: Asked,
        expected: &Expected,
        tried: Tried,
    ) {
        if let Ok(resolved) = expected {
            let (numbers, bytes) = (resolved.rows.len(), resolved.text.len());
            let length = asked.span.1 - asked.span.0;
            let enough = (oracle::CHUNK_NUMBERS * (length + 1), 2 * length);
            assert!(
                numbers <= enough.0 && bytes <= enough.1,
                "include/bib.h says too little"
            );
        }
        for rooms in rooms(expected, tried, self.turn) {
            self.compare(judge, asked, expected, rooms);
        }
    }

    fn compare(&mut self, judge: &mut Judge, asked: Asked, expected: &Expected, rooms: Rooms) {
        let Asked {
            span: (from, to),
            verbatim,
            scratch,
        } = asked;
        let file = self.file.lent();
        self.output.compare(
            judge,
            expected,
            (scratch, rooms),
            |lent| proved::resolve_literal(file, from, to, verbatim, lent),
            |case| report::literal(case, file, asked, rooms),
        );
    }
}
