//! Refusals: why, and where.

use std::fmt;

/// Why something was refused, with document 01's numbers.
#[derive(Debug, Clone, Copy, PartialEq, Eq, Hash)]
pub enum Reason {
    TooLong = 1,
    NotUtf8 = 2,
    UnexpectedEof = 3,
    ExpectedIdentifier = 4,
    ExpectedOpeningBrace = 5,
    ExpectedClosingBrace = 6,
    ExpectedComma = 7,
    ExpectedQuotationMark = 8,
    ExpectedEquals = 9,
    UnexpectedDecimalPoint = 10,
    UnexpectedClosingBrace = 11,
    UnknownAbbreviation = 12,
    Cyclic = 13,
    TooDeep = 14,
    TooManyNames = 15,
    NoRoom = 16,
    BadRows = 17,
}

/// All of them, in the order of their numbers.
const REASONS: [Reason; 17] = [
    Reason::TooLong,
    Reason::NotUtf8,
    Reason::UnexpectedEof,
    Reason::ExpectedIdentifier,
    Reason::ExpectedOpeningBrace,
    Reason::ExpectedClosingBrace,
    Reason::ExpectedComma,
    Reason::ExpectedQuotationMark,
    Reason::ExpectedEquals,
    Reason::UnexpectedDecimalPoint,
    Reason::UnexpectedClosingBrace,
    Reason::UnknownAbbreviation,
    Reason::Cyclic,
    Reason::TooDeep,
    Reason::TooManyNames,
    Reason::NoRoom,
    Reason::BadRows,
];

impl Reason {
    /// The reason of a number, if there is one.
    pub fn of(number: u32) -> Option<Self> {
        REASONS.into_iter().find(|reason| reason.number() == number)
    }

    /// Document 01's number.
    pub fn number(self) -> u32 {
        self as u32
    }

    /// A short name, for programs that would rather not know numbers.
    pub fn name(self) -> &'static str {
        match self {
            Self::TooLong => "too-long",
            Self::NotUtf8 => "not-utf8",
            Self::UnexpectedEof => "unexpected-end",
            Self::ExpectedIdentifier => "expected-identifier",
            Self::ExpectedOpeningBrace => "expected-opening-brace",
            Self::ExpectedClosingBrace => "expected-closing-brace",
            Self::ExpectedComma => "expected-comma",
            Self::ExpectedQuotationMark => "expected-quotation-mark",
            Self::ExpectedEquals => "expected-equals",
            Self::UnexpectedDecimalPoint => "unexpected-decimal-point",
            Self::UnexpectedClosingBrace => "unexpected-closing-brace",
            Self::UnknownAbbreviation => "unknown-name",
            Self::Cyclic => "cyclic-name",
            Self::TooDeep => "too-deep",
            Self::TooManyNames => "too-many-names",
            Self::NoRoom => "no-room",
            Self::BadRows => "bad-rows",
        }
    }

    /// What is wrong, in the words that are used wherever it is said.
    pub fn what(self) -> &'static str {
        match self {
            Self::TooLong => "the file is longer than 16,777,215 bytes",
            Self::NotUtf8 => "bytes that are not UTF-8",
            Self::UnexpectedEof => "a value is missing or the text ends too early",
            Self::ExpectedIdentifier => "expected an identifier",
            Self::ExpectedOpeningBrace => "expected an opening brace",
            Self::ExpectedClosingBrace => "expected a closing brace",
            Self::ExpectedComma => "expected a comma",
            Self::ExpectedQuotationMark => "expected a quotation mark",
            Self::ExpectedEquals => "expected an equals sign",
            Self::UnexpectedDecimalPoint => "unexpected decimal point",
            Self::UnexpectedClosingBrace => "unexpected closing brace",
            Self::UnknownAbbreviation => "a name without a definition",
            Self::Cyclic => "a name that is used in its own definition",
            Self::TooDeep => "too many names or arguments of commands inside each other",
            Self::TooManyNames => "more than 4,096 names in one field",
            Self::NoRoom => "there is not enough room for the answer",
            Self::BadRows => "these are not well-formed rows",
        }
    }

    /// What is wrong, where it is known whether the place is the end of the text. The Rust has one
    /// refusal for a text that ends too early and for a value that does not begin: only the second
    /// can have a place before the end (`early` of crates/raw/specs/Strict.antt).
    pub fn what_at(self, is_end: bool) -> &'static str {
        match self {
            Self::UnexpectedEof if is_end => "the text ends too early",
            Self::UnexpectedEof => "expected a value",
            _ => self.what(),
        }
    }

    /// Whether a place says something: the file, the room and the rows as a whole have 0..0.
    fn has_place(self) -> bool {
        !matches!(self, Self::TooLong | Self::NoRoom | Self::BadRows)
    }
}

/// A refusal: why, and at which bytes of what was given. Where reading comes to what it cannot take, which
/// are the numbers 3 to 10, these are the whole character that stands there; and none where the text ends.
#[derive(Debug, Clone, Copy, PartialEq, Eq, Hash)]
pub struct Refusal {
    pub reason: Reason,
    pub start: usize,
    pub end: usize,
}

impl Refusal {
    /// Memory is too short to lend what an answer may need.
    pub(crate) const NO_MEMORY: Self = Self {
        reason: Reason::NoRoom,
        start: 0,
        end: 0,
    };

    /// The refusal of an answer whose number is not 0, with its place.
    pub(crate) fn of(number: u32, start: u64, end: u64) -> Self {
        Self {
            reason: Reason::of(number).expect("the proved calls refuse by 01's table"),
            start: start as usize,
            end: end as usize,
        }
    }

    /// Nothing where the room was too short, and else the refusal.
    pub(crate) fn unless_room<T>(self) -> Result<Option<T>, Self> {
        match self.reason {
            Reason::NoRoom => Ok(None),
            _ => Err(self),
        }
    }

    /// What is wrong. A literal may be too long, or the file.
    pub fn what(&self) -> &'static str {
        if self.is_long_literal() {
            "a literal is longer than 16,384 bytes"
        } else {
            self.reason.what()
        }
    }

    /// Whether it is a literal that is too long, and not the file: that has 0..0.
    fn is_long_literal(&self) -> bool {
        self.reason == Reason::TooLong && self.end > 0
    }
}

impl fmt::Display for Refusal {
    fn fmt(&self, f: &mut fmt::Formatter<'_>) -> fmt::Result {
        f.write_str(self.what())?;
        if self.reason.has_place() || self.is_long_literal() {
            write!(f, " at byte {}", self.start)?;
        }
        write!(f, " (refusal {})", self.reason.number())
    }
}

impl std::error::Error for Refusal {}

impl From<std::collections::TryReserveError> for Refusal {
    fn from(_: std::collections::TryReserveError) -> Self {
        Self::NO_MEMORY
    }
}
