//! Every error, explained.

use crate::Reason;

/// What is to be known of a refusal that is an error.
pub struct AboutError {
    pub reason: Reason,
    /// What it means, in a sentence or two.
    pub meaning: &'static str,
    /// A file that has it; empty where that would be long.
    pub example: &'static str,
}

/// All refusals that can be errors, by their numbers: those of reading, and from 11 on those of
/// resolving, which has 1 and 3 too.
pub const ERRORS: [AboutError; 16] = [
    AboutError {
        reason: Reason::TooLong,
        meaning: "The file is longer than 16,777,215 bytes; or a literal, a part of a value in braces or quotation marks, is longer than 16,384.",
        example: "",
    },
    AboutError {
        reason: Reason::NotUtf8,
        meaning: "The file is not in UTF-8. The first such piece has a guess of the encoding, and each entry is named.",
        example: "",
    },
    AboutError {
        reason: Reason::UnexpectedEof,
        meaning: "A value is missing; or the text ends too early: in a value that is not closed, in a formula or in the argument of a command.",
        example: "@book{k, title = {5$ off}}",
    },
    AboutError {
        reason: Reason::ExpectedIdentifier,
        meaning: "The name of a field or the type of an entry is missing, or a comment is one too many.",
        example: "@book{k, = {T}}",
    },
    AboutError {
        reason: Reason::ExpectedOpeningBrace,
        meaning: "What begins with an \"@\" goes on with no brace.",
        example: "@book(k, title = {T})",
    },
    AboutError {
        reason: Reason::ExpectedClosingBrace,
        meaning: "A preamble or a comment goes on where it should end.",
        example: "@preamble{\"a\" # \"b\"}",
    },
    AboutError {
        reason: Reason::ExpectedComma,
        meaning: "The comma behind a key or a value is missing, or a value stands without braces.",
        example: "@book{k, title = {T} year = 1997}",
    },
    AboutError {
        reason: Reason::ExpectedQuotationMark,
        meaning: "A preamble has no quotation marks, or its second one is missing.",
        example: "@preamble{{a}}",
    },
    AboutError {
        reason: Reason::ExpectedEquals,
        meaning: "A field has no equals sign, or the value before it was closed too early.",
        example: "@book{k, title {T}}",
    },
    AboutError {
        reason: Reason::UnexpectedDecimalPoint,
        meaning: "A number has two points. What is not a number stands in braces.",
        example: "@book{k, version = 1.2.3}",
    },
    AboutError {
        reason: Reason::UnexpectedClosingBrace,
        meaning: "A value has a closing brace too many, or one whose opening brace stands in a formula.",
        example: "@book{k, title = \"T}\"}",
    },
    AboutError {
        reason: Reason::UnknownAbbreviation,
        meaning: "A name has no definition by @string; the English months need none. Text stands in braces.",
        example: "@book{k, publisher = acm}",
    },
    AboutError {
        reason: Reason::Cyclic,
        meaning: "A definition uses its own name, or leads back to it by others.",
        example: "@string{acm = acm # {, New York}}",
    },
    AboutError {
        reason: Reason::TooDeep,
        meaning: "More than 32 definitions lead from one to the next, or more than 64 arguments of commands stand in each other.",
        example: "",
    },
    AboutError {
        reason: Reason::TooManyNames,
        meaning: "A value uses more than 4,096 names, those of its definitions counted too.",
        example: "",
    },
    AboutError {
        reason: Reason::NoRoom,
        meaning: "With this value resolved, the values of the file would come to more than its limit, mostly because names that stand for long texts are used very often; --limit sets it.",
        example: "",
    },
];
