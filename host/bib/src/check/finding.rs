//! Findings: what is said of a file.

use crate::{Reason, Row};

/// How grave a finding is.
#[derive(Debug, Clone, Copy, PartialEq, Eq, PartialOrd, Ord, Hash)]
pub enum Level {
    /// What is read, but surely not meant.
    Warning,
    /// What the reader refuses.
    Error,
}

impl Level {
    pub fn name(self) -> &'static str {
        match self {
            Self::Warning => "warning",
            Self::Error => "error",
        }
    }
}

/// What a warning is about. Each has a name, by which it can be silenced or made an error.
#[derive(Debug, Clone, Copy, PartialEq, Eq, Hash)]
pub enum Lint {
    FieldOutside,
    EntryOutside,
    NoEntries,
    MergeConflict,
    DuplicateKey,
    KeyInTwoFiles,
    EmptyKey,
    OddKey,
    DuplicateField,
    DuplicateDefinition,
    LateClose,
    AndList,
    NameSeparator,
    EtAl,
    TypographicQuotes,
    CutInside,
    Encoding,
    ReplacementCharacter,
    Mojibake,
    HtmlEntity,
    InvisibleCharacter,
    LookAlike,
    KeyCase,
    UnknownCrossref,
    UnknownType,
    UnknownField,
    EmptyField,
    OddDate,
    OddPages,
}

/// A set of lints.
#[derive(Debug, Clone, Copy, PartialEq, Eq)]
pub struct Lints(u64);

impl Lints {
    pub const ALL: Self = Self((1 << LINTS.len()) - 1);

    /// What is lost, though the file is read: fields and entries outside every entry, a field that stands
    /// twice, fields in a value that was closed too late.
    pub const LOST: Self = Self::of(&[
        Lint::FieldOutside,
        Lint::EntryOutside,
        Lint::DuplicateField,
        Lint::LateClose,
    ]);

    pub const fn of(lints: &[Lint]) -> Self {
        let (mut all, mut n) = (0, 0);
        while n < lints.len() {
            all |= 1 << lints[n] as u32;
            n += 1;
        }
        Self(all)
    }

    pub fn without(self, lint: Lint) -> Self {
        Self(self.0 & !(1 << lint as u32))
    }

    /// Whether it has one that is not of these.
    pub(crate) fn has_more_than(self, others: Self) -> bool {
        self.0 & !others.0 != 0
    }

    pub fn has(self, lint: Lint) -> bool {
        self.0 >> lint as u32 & 1 == 1
    }
}

/// What is to be known of a lint.
pub struct About {
    pub lint: Lint,
    pub name: &'static str,
    /// What it means, in a sentence or two.
    pub meaning: &'static str,
    /// A file that has it.
    pub example: &'static str,
}

/// All lints, in the order of the enum.
pub const LINTS: [About; 29] = [
    About {
        lint: Lint::FieldOutside,
        name: "field-outside",
        meaning: "Text outside every entry holds `word =`: a field that an entry lost, mostly because the entry was closed before it.",
        example: "@book{k, title = {T}}, year = 1997}",
    },
    About {
        lint: Lint::EntryOutside,
        name: "entry-outside",
        meaning: "Text outside every entry holds `word{key,`: an entry without its \"@\", which is lost.",
        example: "article{k, title = {T}}",
    },
    About {
        lint: Lint::NoEntries,
        name: "no-entries",
        meaning: "The file is not blank, and has neither entries nor definitions nor a preamble.",
        example: "to be done",
    },
    About {
        lint: Lint::MergeConflict,
        name: "merge-conflict",
        meaning: "A line between entries or in a value begins with `<<<<<<<`: a merge left two versions of what follows.",
        example: "<<<<<<< HEAD\n@book{k, title = {A}}\n=======\n@book{l, title = {B}}\n>>>>>>> mine",
    },
    About {
        lint: Lint::DuplicateKey,
        name: "duplicate-key",
        meaning: "Two entries of a file have the same key, so that one of them cannot be cited.",
        example: "@book{k, title = {A}}\n@book{k, title = {B}}",
    },
    About {
        lint: Lint::KeyInTwoFiles,
        name: "key-in-two-files",
        meaning: "Entries of two of the files given have the same key.",
        example: "@book{k, title = {A}}",
    },
    About {
        lint: Lint::EmptyKey,
        name: "empty-key",
        meaning: "An entry's key is empty, so that it cannot be cited.",
        example: "@book{, title = {T}}",
    },
    About {
        lint: Lint::OddKey,
        name: "odd-key",
        meaning: "A key begins with \"@\", or reads like `year=1997`: the next entry, or a field, is taken for the key. Or it has a brace or a quotation mark in it, or a semicolon at an end.",
        example: "@book{year=1997, title = {T}}",
    },
    About {
        lint: Lint::DuplicateField,
        name: "duplicate-field",
        meaning: "An entry has a field twice, in small or large letters; one of the values is lost.",
        example: "@book{k, year = 1996, year = 1997}",
    },
    About {
        lint: Lint::DuplicateDefinition,
        name: "duplicate-definition",
        meaning: "A name is defined twice by @string; the last definition counts, for uses before it too.",
        example: "@string{acm = {ACM}}\n@string{acm = {A.C.M.}}\n@book{k, publisher = acm}",
    },
    About {
        lint: Lint::LateClose,
        name: "late-close",
        meaning: "A value holds a line that looks like a field or an entry: a brace or quotation mark was closed too late, and what follows is lost in the value.",
        example: "@book{k,\n  title = {T,\n  year = {1997}}\n}",
    },
    About {
        lint: Lint::AndList,
        name: "and-list",
        meaning: "A list of names begins or ends with `and`, or has `and and`: a name is missing.",
        example: "@book{k, author = {A. Author and}}",
    },
    About {
        lint: Lint::NameSeparator,
        name: "name-separator",
        meaning: "A list of names has `;`, `&` or `,` between two of them, which is taken for a part of one name.",
        example: "@book{k, author = {Donald E. Knuth; Leslie Lamport}}",
    },
    About {
        lint: Lint::EtAl,
        name: "et-al",
        meaning: "A list of names has `et al.`, which is taken for a name: `and others` stands for those that are left out.",
        example: "@book{k, author = {Donald E. Knuth and et al.}}",
    },
    About {
        lint: Lint::TypographicQuotes,
        name: "typographic-quotes",
        meaning: "A value begins with a typographic quotation mark, which delimits nothing: the value is taken for the name of a definition. Where that is not defined, it is an error.",
        example: "@string{“T” = {T}}\n@book{k, title = “T”}",
    },
    About {
        lint: Lint::CutInside,
        name: "cut-inside",
        meaning: "An \"@\" begins a line inside an entry. The file is sound, but salvage, which reads damaged files, would cut the entry there.",
        example: "@book{k, abstract = {mail me\n@home}}",
    },
    About {
        lint: Lint::Encoding,
        name: "encoding",
        meaning: "The file is read as UTF-8, but has the escape sequences of ISO-2022-JP.",
        example: "@book{k, title = {\u{1b}$B4A;z\u{1b}(B}}",
    },
    About {
        lint: Lint::ReplacementCharacter,
        name: "replacement-character",
        meaning: "U+FFFD stands where a program could not read a character when the file was converted.",
        example: "@book{k, title = {Na\u{fffd}ve}}",
    },
    About {
        lint: Lint::Mojibake,
        name: "mojibake",
        meaning: "UTF-8 was read as Latin-1 or Windows-1252 and written again: several characters stand for one.",
        example: "@book{k, title = {Les MisÃ©rables}}",
    },
    About {
        lint: Lint::HtmlEntity,
        name: "html-entity",
        meaning: "A character is written as HTML writes it, which TeX does not understand.",
        example: "@book{k, publisher = {Simon &amp; Schuster}}",
    },
    About {
        lint: Lint::InvisibleCharacter,
        name: "invisible-character",
        meaning: "A key, a name or a list of names has a character that is not seen, so that it is another one than it looks.",
        example: "@book{knuth\u{200b}84, title = {T}}",
    },
    About {
        lint: Lint::LookAlike,
        name: "look-alike",
        meaning: "A word of a key, a name or a list of names has a Cyrillic or Greek letter among Latin ones, which looks like one of them; or a Latin one among the others.",
        example: "@book{k, author = {Dоnald E. Knuth}}",
    },
    About {
        lint: Lint::KeyCase,
        name: "key-case",
        meaning: "Two keys of a file differ in small and large letters alone, which are one key to BibTeX.",
        example: "@book{Knuth84, title = {A}}\n@book{knuth84, title = {B}}",
    },
    About {
        lint: Lint::UnknownCrossref,
        name: "unknown-crossref",
        meaning: "`crossref`, `xref` or `xdata` names a key that no entry of the files given has.",
        example: "@inbook{k, title = {T}, crossref = {l}}",
    },
    About {
        lint: Lint::UnknownType,
        name: "unknown-type",
        meaning: "The type of an entry is not known, but one letter from one that is, or two of its letters are exchanged.",
        example: "@artcle{k, title = {T}}",
    },
    About {
        lint: Lint::UnknownField,
        name: "unknown-field",
        meaning: "The name of a field is not known, but one letter from one that is and that the entry does not have, or two of its letters are exchanged.",
        example: "@book{k, auhtor = {Donald E. Knuth}}",
    },
    About {
        lint: Lint::EmptyField,
        name: "empty-field",
        meaning: "The field `title` is empty, or `author` and no editor, organization or institution stands for it.",
        example: "@book{k, author = {}, title = {T}}",
    },
    About {
        lint: Lint::OddDate,
        name: "odd-date",
        meaning: "A `year` is 0, has five digits or more, or a letter that looks like a digit, or is far in the future; a `month` or a `date` has a month or a day that there is not.",
        example: "@book{k, title = {T}, year = {20144}}",
    },
    About {
        lint: Lint::OddPages,
        name: "odd-pages",
        meaning: "A range of `pages` ends before it begins, and is not a shortened one such as `123--9`.",
        example: "@article{k, title = {T}, pages = {45--12}}",
    },
];

impl Lint {
    pub fn about(self) -> &'static About {
        &LINTS[self as usize]
    }

    pub fn name(self) -> &'static str {
        self.about().name
    }

    /// The lint of this name, if there is one.
    pub fn named(name: &str) -> Option<Self> {
        let found = LINTS.iter().find(|about| about.name == name)?;
        Some(found.lint)
    }
}

/// What a finding goes by: the number of a refusal, or the name of a lint.
#[derive(Debug, Clone, Copy, PartialEq, Eq, Hash)]
pub enum Code {
    Refusal(Reason),
    Lint(Lint),
}

/// Something that is to be said of a file.
#[derive(Debug, Clone, PartialEq, Eq)]
pub struct Finding {
    pub code: Code,
    /// The bytes that it is about. Of a refusal they are the proved library's: where reading stopped, the
    /// whole character that stands there, or none where the text ends.
    pub start: usize,
    pub end: usize,
    /// The byte at which a person should look. It may be elsewhere: where a comma should have stood.
    pub mark: usize,
    pub message: String,
    /// What can be done, where that is known.
    pub hint: Option<String>,
    /// The key of the entry that it is about, where there is one, as [`key_name`](super::key_name) has it.
    pub key: Option<String>,
}

impl Finding {
    /// The level that it has unless something else is asked for.
    pub fn level(&self) -> Level {
        match self.code {
            Code::Refusal(_) => Level::Error,
            Code::Lint(_) => Level::Warning,
        }
    }

    /// A warning about these bytes, to be looked at where they begin.
    pub(crate) fn lint(lint: Lint, start: usize, end: usize, message: String) -> Self {
        Self {
            code: Code::Lint(lint),
            start,
            end,
            mark: start,
            message,
            hint: None,
            key: None,
        }
    }

    /// A warning about a row.
    pub(crate) fn of_row(lint: Lint, row: Row, message: String) -> Self {
        Self::lint(lint, row.start, row.end, message)
    }

    pub(crate) fn with_hint(self, hint: Option<String>) -> Self {
        Self { hint, ..self }
    }

    pub(crate) fn with_key(self, key: Option<String>) -> Self {
        Self { key, ..self }
    }
}

#[cfg(test)]
mod tests {
    use super::*;

    #[test]
    fn lints_in_order() {
        for (n, about) in LINTS.iter().enumerate() {
            assert_eq!(about.lint as usize, n);
            assert_eq!(Lint::named(about.name), Some(about.lint));
        }
        assert_eq!(Lint::named("nothing"), None);
    }
}
