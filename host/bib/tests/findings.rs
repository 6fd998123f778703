//! What the library finds in files: every lint and every hint, with a file that it is for and one
//! where it must not appear.

use bib::check::{check, About, Code, Counts, Finding, Level, Lint, Stop, LINTS};

/// All findings, each with its line and column.
fn findings(file: &[u8]) -> Vec<(String, Finding)> {
    let mut seen = Vec::new();
    let checked = check(file, |finding, lines| {
        seen.push((lines.place(finding.mark), finding.clone()));
        Ok::<(), ()>(())
    });
    assert!(checked.is_ok(), "{checked:?}");
    seen
}

/// The lints found, with their places.
fn lints(file: &str) -> Vec<(Lint, String)> {
    let found = findings(file.as_bytes()).into_iter();
    let lint = |(place, finding): (String, Finding)| match finding.code {
        Code::Lint(lint) => Some((lint, place)),
        Code::Refusal(_) => None,
    };
    found.filter_map(lint).collect()
}

/// A lint is found in one file at this place, alone, and in the other not at all.
#[track_caller]
fn lint(lint: Lint, file: &str, place: &str, without: &str) {
    assert_eq!(lints(file), [(lint, place.to_string())], "{file}");
    assert_eq!(lints(without), [], "{without}");
}

#[test]
fn lints_outside() {
    let lost = "@book{k, title = {T}, year = 1997},\n  month = jan,\n}";
    let prose = "see where x = 3, by {Knuth, D.}\n% year = 1997\n@book{k, title = {T}}";
    lint(Lint::FieldOutside, lost, "2:3", prose);
    let lost = "article{knuth84,\n  title = {T}\n}\n@book{k, title = {T}}";
    lint(
        Lint::EntryOutside,
        lost,
        "1:1",
        "some {words, here}\n@book{k, title = {T}}",
    );
    for (lost, place) in [
        ("@book{k, title = {T}}\n  month = jan\n}", "2:3"),
        (
            "@book{k, title = {T}}\n  author =\n    {A. Author}\n}",
            "2:3",
        ),
        ("@book{k, title = {T}};\n  author = {A. Author}\n}", "2:3"),
        ("@book{k, title = {T}}.\n  author = {A. Author}\n}", "2:3"),
    ] {
        lint(Lint::FieldOutside, lost, place, prose);
    }
    lint(
        Lint::EntryOutside,
        "@book{k, title = {T}}\n{knuth84, title = {T}}",
        "2:1",
        "@book{k, title = {T}}\n{some, words}",
    );
    let conflict = "<<<<<<< HEAD\n@book{k, a = 1}\n=======\n@book{l, a = 2}\n>>>>>>> mine\n";
    let line = "<<<<<<<<< not one\n <<<<<<< nor this\n% <<<<<<< HEAD\n=======\n@book{k, a = 1}";
    lint(Lint::MergeConflict, conflict, "1:1", line);
    let inside = "@book{k, title = {A\n<<<<<<< HEAD\nB\n=======\nC\n>>>>>>> mine\n}}";
    lint(
        Lint::MergeConflict,
        inside,
        "2:1",
        "@book{k, title = {A\n>> B}}",
    );
    // Someone has taken out the first line alone.
    let rest = "@book{k, a = 1}\n=======\n@book{l, a = 2}\n>>>>>>> mine\n";
    lint(Lint::MergeConflict, rest, "4:1", line);
    lint(Lint::NoEntries, "to be done", "1:1", " \n\t");
    assert_eq!(lints("@string{a = 1}"), []);
    assert_eq!(lints("@preamble{\"x\"}"), []);
    assert_eq!(lints("\u{feff}"), []);
    assert_eq!(lints("% nothing\n"), [(Lint::NoEntries, "1:1".into())]);
}

#[test]
fn lints_of_keys() {
    let twice = "@book{k, title = {A}}\n@book{k, title = {B}}";
    lint(
        Lint::DuplicateKey,
        twice,
        "2:7",
        "@book{k, a = 1}\n@book{l, a = 1}",
    );
    assert_eq!(
        findings(twice.as_bytes())[0].1.message,
        "the key k is that of another entry, at 1:7"
    );
    lint(
        Lint::EmptyKey,
        "@book{, title = {T}}",
        "1:7",
        "@book{k, title = {T}}",
    );
    lint(
        Lint::OddKey,
        "@book{year=1997, title = {T}}",
        "1:7",
        "@book{abnt-doi=link, title = {T}}",
    );
    let odd = [
        "{k", "\"k\"", "k;", "k{", "a{b", "k\"", "'k'", "`k'", "“k”", "‘k’", ";k",
    ];
    for key in odd {
        let file = format!("@book{{{key}, title = {{T}}}}");
        lint(Lint::OddKey, &file, "1:7", "@book{k:1, title = {T}}");
    }
    assert_eq!(lints("@book{O'Neil;a:d’Alembert, title = {T}}"), []);
    assert_eq!(
        findings(b"@book{{k, title = {T}}}")[0].1.message,
        "the key {k has a brace in it"
    );
    // Strict reading takes the second entry's beginning for a key.
    lint(
        Lint::OddKey,
        "@book{\n@book{k, title = {T}}",
        "2:1",
        "@book{k,\n}",
    );
    // Empty keys are not the same key.
    let both = [
        (Lint::EmptyKey, "1:7".into()),
        (Lint::EmptyKey, "2:7".into()),
    ];
    assert_eq!(lints("@book{, a = 1}\n@book{, a = 1}"), both);
}

#[test]
fn lints_of_fields_and_definitions() {
    let twice = "@book{k, year = 1996,\n  Year = 1997}";
    lint(
        Lint::DuplicateField,
        twice,
        "2:3",
        "@book{k, year = 1996}\n@book{l, year = 1996}",
    );
    let twice = "@string{a = 1, b = 2}\n@string{b = 3}";
    lint(
        Lint::DuplicateDefinition,
        twice,
        "2:9",
        "@string{a = 1}\n@string{A = 1}",
    );
}

#[test]
fn lints_of_lists() {
    lint(
        Lint::NameSeparator,
        "@book{k, author = {Donald E. Knuth; Leslie Lamport}}",
        "1:35",
        "@book{k, author = {{Knuth; Sons}}, title = {A; B & C}}",
    );
    lint(
        Lint::NameSeparator,
        "@book{k, editor = \"L. M. Le Cam & J. Neyman\"}",
        "1:33",
        "@book{k, editor = {{Simon & Schuster} and J. Neyman}}",
    );
    lint(
        Lint::EtAl,
        "@book{k, author = {Knuth, Donald E. and et al.}}",
        "1:41",
        "@book{k, author = {Knuth, Donald E. and others}, note = {Knuth et al.}}",
    );
    for (lint_, names) in [
        (Lint::EtAl, "Knuth and {et al.}"),
        (Lint::EtAl, "Knuth and \\emph{et al.}"),
        (Lint::EtAl, "Knuth and et~al."),
        (Lint::NameSeparator, "A. Author;B. Writer"),
        (Lint::NameSeparator, "A. Author\\&B. Writer"),
        (Lint::NameSeparator, "Donald E. Knuth, Leslie Lamport"),
        (Lint::NameSeparator, "Knuth DE, Lamport L"),
    ] {
        let file = format!("@book{{k, author = {{{names}}}}}");
        let found: Vec<Lint> = lints(&file).into_iter().map(|(lint, _)| lint).collect();
        assert_eq!(found, [lint_], "{names}");
    }
}

#[test]
fn lints_of_values() {
    let late = "@book{k,\n  title = {T,\n  year = {1997}}\n}";
    lint(
        Lint::LateClose,
        late,
        "2:11",
        "@book{k,\n  title = {T},\n  year = {1997}\n}",
    );
    let late = "@book{k,\n  title = \"T,\n  year = 1997,\n  note = \"\n}";
    lint(
        Lint::LateClose,
        late,
        "2:11",
        "@book{k, note = {where\nx = y + z}}",
    );
    said(
        Lint::LateClose,
        "@book{k, title = {T\n  @book{l, title = {L}}\n}}",
        (
            "1:18",
            "the value of `title` holds what looks like the entry `l`",
            "the brace that opens the value may be closed too late",
        ),
        "@book{k, note = {as in\n  @book{..} or @book{l, title = {L}}}}",
    );
}

#[test]
fn lints_of_lists_and_quotes() {
    lint(
        Lint::AndList,
        "@book{k, author = {A and}}",
        "1:22",
        "@book{k, author = {A and B}}",
    );
    lint(
        Lint::AndList,
        "@book{k, Editor = {and A}}",
        "1:20",
        "@book{k, title = {and A}}",
    );
    lint(
        Lint::AndList,
        "@book{k, author = \"A and and B\"}",
        "1:26",
        "@book{k, author = {A and others}}",
    );
    // What is joined may have its names elsewhere.
    assert_eq!(lints("@book{k, author = {A and } # b}"), []);
    assert_eq!(lints("@book{k, author = b # { and A}}"), []);
    lint(
        Lint::TypographicQuotes,
        "@string{“T” = 1}@book{k, title = “T”}",
        "1:34",
        "@book{k, title = {“T”}}",
    );
    // Where the name is not defined, that is the error, and it is said once.
    assert_eq!(lints("@book{k, title = “T”}"), []);
}

/// Strict reading takes the file, so that nothing is damaged.
#[test]
fn lint_of_cuts() {
    let cut = "@book{k, abstract = {mail me\n@home}}\n@book{l, a = 1}";
    lint(
        Lint::CutInside,
        cut,
        "2:1",
        "@book{k, abstract = {mail me\n @home}}",
    );
    assert!(findings(cut.as_bytes())
        .iter()
        .all(|(_, finding)| finding.level() == Level::Warning));
    lint(
        Lint::CutInside,
        "@comment{\n@book{k,}\n@book{l,}",
        "2:1",
        "@comment{\n}\n@book{l,}",
    );
    // Where it refuses, there is damage instead.
    assert_eq!(lints("@book{k, abstract = {mail me\n@home}}\n@book{l"), []);
}

#[test]
fn lint_of_encoding() {
    let file = "@book{k, title = {\u{1b}$B4A;z\u{1b}(B}}";
    lint(
        Lint::Encoding,
        file,
        "1:19",
        "@book{k, title = {\u{1b}[2J}}",
    );
}

/// A lint that is said in these words, hint included, and a file where nothing is said.
#[track_caller]
fn said(lint: Lint, file: &str, (place, message, hint): (&str, &str, &str), without: &str) {
    let found = findings(file.as_bytes());
    let words = |(place, finding): &(String, Finding)| {
        let hint = finding.hint.clone().unwrap_or_default();
        (place.clone(), finding.code, finding.message.clone(), hint)
    };
    let want = (
        place.into(),
        Code::Lint(lint),
        message.into(),
        hint.to_string(),
    );
    assert_eq!(
        found.iter().map(words).collect::<Vec<_>>(),
        [want],
        "{file}"
    );
    assert_eq!(findings(without.as_bytes()), [], "{without}");
}

#[test]
fn lints_of_characters() {
    for (title, message) in [
        ("DvoĹ™Ăˇk", "`Ĺ™` for `ř`"),
        ("РњРѕСЃРєРІР°", "`Рњ` for `М`"),
        ("MÃ¼ller", "`Ã¼` for `ü`"),
    ] {
        let file = format!("@book{{k, title = {{{title}}}}}");
        let rest = ": UTF-8 was read as another encoding, and written again";
        let found = findings(file.as_bytes());
        let words: Vec<&str> = found.iter().map(|(_, one)| one.message.as_str()).collect();
        assert_eq!(words, [[message, rest].concat()], "{title}");
    }
    said(
        Lint::ReplacementCharacter,
        "@book{k, title = {Na\u{fffd}ve}}",
        (
            "1:21",
            "the replacement character U+FFFD: a letter was lost when the file was converted",
            "write the letter that stood here",
        ),
        "@book{k, title = {Naïve}}",
    );
    said(
        Lint::Mojibake,
        "@book{k, title = {Les MisÃ©rables}}",
        (
            "1:26",
            "`Ã©` for `é`: UTF-8 was read as another encoding, and written again",
            "write `é`",
        ),
        "@book{k, title = {Les Misérables, ÃO}}",
    );
    said(
        Lint::HtmlEntity,
        "@book{k, author = {Ren&eacute; Descartes}}",
        (
            "1:23",
            "`&eacute;` is a character as HTML writes it",
            "write `é`",
        ),
        "@book{k, url = {http://a.b/?c=d&e;f=1}, note = {R\\&D; AT\\&T}}",
    );
    said(
        Lint::InvisibleCharacter,
        "@book{knuth\u{200b}84, title = {T}}",
        (
            "1:12",
            "a zero-width space, U+200B, which is not seen",
            "take it out: with it, this is another word to whoever cites, sorts or searches",
        ),
        "@book{k, title = {A\u{200b}B}, author = {می\u{200c}خواهم}}",
    );
    said(
        Lint::LookAlike,
        "@book{k, author = {Dоnald E. Knuth}}",
        (
            "1:21",
            "`о` in `Dоnald` is Cyrillic, not Latin",
            "it only looks like the Latin letter: write `o`",
        ),
        "@book{k, author = {Иванов (Ivanov)}, title = {Dоnald}}",
    );
}

#[test]
fn lints_of_names() {
    said(
        Lint::KeyCase,
        "@book{Knuth84, title = {A}}\n@book{knuth84, title = {B}}",
        (
            "2:7",
            "the key knuth84 differs from Knuth84, at 1:7, in small and large letters alone",
            "to BibTeX they are the same: give one of them another key",
        ),
        "@book{Knuth84, title = {A}}\n@book{knuth85, title = {B}}",
    );
    // The same key twice is said as such, beside one in other letters.
    let found = lints("@book{A, t = 1}\n@book{a, t = 1}\n@book{a, t = 1}");
    let want = [
        (Lint::KeyCase, "2:7".into()),
        (Lint::DuplicateKey, "3:7".into()),
    ];
    assert_eq!(found, want);
    said(
        Lint::UnknownType,
        "@artcle{k, title = {T}}",
        (
            "1:2",
            "the entry type `artcle` is not known",
            "did you mean `article`?",
        ),
        "@mytype{k, title = {T}}\n@ebook{l, title = {T}}",
    );
    said(
        Lint::UnknownField,
        "@book{k, auhtor = {A}}",
        (
            "1:10",
            "the field `auhtor` is not known",
            "did you mean `author`?",
        ),
        "@book{k, author = {A}, authors = {B}, mood = {C}, fjournal = {D}, note-2 = {E}}",
    );
}

#[test]
fn lint_of_references() {
    said(
        Lint::UnknownCrossref,
        "@inbook{k, title = {T}, crossref = {l}}",
        (
            "1:37",
            "no entry has the key l, which `crossref` names",
            "if it is in another file, check both together",
        ),
        "@inbook{k, crossref = {L}}\n@book{l, title = {T}}",
    );
    // Before and behind, in lists, by other names, and empty.
    assert_eq!(
        lints("@set{m, ids = {a, b}}\n@x{k, xdata = {m, a,b}, xref = {k}, crossref = {}}"),
        []
    );
    // A damaged entry has its key still.
    assert_eq!(lints("@x{k, xref = {l}}\n@book{l, title = }"), []);
    let found = lints("@x{k, xdata = {m, k,n}, xref = a # {b}}");
    let want = ["1:16", "1:21"].map(|place| (Lint::UnknownCrossref, place.to_string()));
    assert_eq!(found[..2], want);
}

#[test]
fn lints_of_what_cannot_be() {
    let empty = (
        "1:20",
        "the field `author` is empty",
        "fill it in, or take it out",
    );
    said(
        Lint::EmptyField,
        "@book{k, author = {}, title = {T}}",
        empty,
        "@book{k, author = {}, editor = {E}, title = {{}}, note = {}}",
    );
    // Nobody stands for the author.
    assert_eq!(
        lints("@book{k, author = {}, editor = {}, title = {T}}"),
        [(Lint::EmptyField, "1:20".into())]
    );
    said(
        Lint::OddDate,
        "@book{k, year = 3021}",
        (
            "1:17",
            "the year 3021 is far in the future",
            "write the year that is meant",
        ),
        "@book{k, year = 2567}@book{l, year = 5784}@book{m, year = 800}",
    );
    said(
        Lint::OddPages,
        "@article{k, pages = {S269--S268}}",
        (
            "1:22",
            "the pages S269--S268 end before they begin",
            "write the smaller number first",
        ),
        "@article{k, pages = {24--5}}@article{l, pages = {S12--S15}}",
    );
    said(
        Lint::OddDate,
        "@book{k, year = {20144}}",
        (
            "1:18",
            "the year 20144 has 5 digits",
            "a year has four digits",
        ),
        "@book{k, year = {1998/99}}@book{l, year = {to appear}}@book{m, year = {c. 1650}}",
    );
    said(
        Lint::OddDate,
        "@book{k, month = 13}",
        (
            "1:18",
            "there is no month 13",
            "months are 1 to 12, or the names jan to dec without braces",
        ),
        "@book{k, month = 12}@book{l, month = jan}@book{m, month = {1/2}}",
    );
    said(
        Lint::OddPages,
        "@article{k, pages = {1--3, 45-12}}",
        (
            "1:28",
            "the pages 45-12 end before they begin",
            "write the smaller number first",
        ),
        "@article{k, pages = {123--9}}@article{l, pages = {e12--e10}}@article{m, pages = {xv--xi}}",
    );
    said(
        Lint::NameSeparator,
        "@book{k, author = {D. E. Knuth, L. Lamport}}",
        (
            "1:31",
            "`,` between two names is taken for a part of one",
            "write `and` between two names, and braces around one that has such a mark in it",
        ),
        "@book{k, author = {Knuth, D. E. and King, Jr., Martin Luther}}",
    );
}

/// What is outside is not lost where it was left out on purpose, or is prose.
#[test]
fn fields_outside_on_purpose() {
    for file in [
        "encoding = \"utf-8\"\n@book{k, a = 1}",
        "@book{k, a = 1}\n\nUse the type field, e.g.,\ntype = \"Patent\"\n",
        "@book{k, a = 1}\n% not cited\n  author = {A},\n  title = {T}\n}",
        "@comment{l,\n  a = {1},\n  b = {2},\n  c = 3}\n@book{k, a = 1}",
        "%  @booklet{,\n  key = \"\",\n  author = \"\"\n}\n@book{k, a = 1}",
    ] {
        assert_eq!(lints(file), [], "{file}");
    }
    for (file, place) in [
        ("@book{k, a = 1}\n\n  author = {A}\n}", "3:3"),
        ("@book{k, a = 1}, % the first\n  b = 2}", "2:3"),
        ("@book{k, a = 1},\n% c = 3,\n  b = 2}", "3:3"),
        (
            "\u{feff}author = {A},\n title = {T}}\n@book{k, a = 1}",
            "1:1",
        ),
    ] {
        assert_eq!(lints(file), [(Lint::FieldOutside, place.into())], "{file}");
    }
}

/// What is said of the example of each lint: its place, what is wrong, and what to do.
#[rustfmt::skip]
const WORDS: [(&str, &str, &str, &str); 28] = [
    ("field-outside", "1:24", "the field `year` is outside every entry, and lost", "the entry before it may have been closed too early"),
    ("entry-outside", "1:1", "`article{k,` without an \"@\": the entry is lost", ""),
    ("no-entries", "1:1", "no entries in this file", ""),
    ("merge-conflict", "1:1", "two versions that a merge left", "this line was left by a merge: keep one of the two versions, and take the lines of `<`, `=` and `>` out"),
    ("duplicate-key", "2:7", "the key k is that of another entry, at 1:7", ""),
    ("empty-key", "1:7", "this entry has no key", "write a key before the comma: nobody can cite the entry without one"),
    ("odd-key", "1:7", "the key year=1997 looks like a field", "put a key and a comma before it"),
    ("duplicate-field", "1:23", "the entry has the field `year` already, at 1:10", ""),
    ("duplicate-definition", "2:9", "`acm` is defined already, at 1:9", "the last definition counts, for uses before it too"),
    ("late-close", "2:11", "the value of `title` holds what looks like the field `year`", "the brace that opens the value may be closed too late"),
    ("and-list", "1:30", "the list of names ends with `and`", "write the name that is missing, or take the `and` out"),
    ("name-separator", "1:35", "`;` between two names is taken for a part of one", "write `and` between two names, and braces around one that has such a mark in it"),
    ("et-al", "1:40", "`et al.` is taken for a name", "write `and others` for names that are left out"),
    ("typographic-quotes", "2:18", "“T” is taken for the name of a definition", "typographic quotation marks delimit nothing: write \"..\" or {..}"),
    ("cut-inside", "2:1", "an \"@\" begins a line inside an entry: salvage would cut there", "put a blank before it, so that damage elsewhere in the file does not reach it"),
    ("encoding", "1:19", "escape sequences of another encoding", "perhaps it is ISO-2022-JP: try `iconv -f ISO-2022-JP -t UTF-8`"),
    ("replacement-character", "1:21", "the replacement character U+FFFD: a letter was lost when the file was converted", "write the letter that stood here"),
    ("mojibake", "1:26", "`Ã©` for `é`: UTF-8 was read as another encoding, and written again", "write `é`"),
    ("html-entity", "1:29", "`&amp;` is a character as HTML writes it", "write `\\&`; in a URL, `&`"),
    ("invisible-character", "1:12", "a zero-width space, U+200B, which is not seen", "take it out: with it, this is another word to whoever cites, sorts or searches"),
    ("look-alike", "1:21", "`о` in `Dоnald` is Cyrillic, not Latin", "it only looks like the Latin letter: write `o`"),
    ("key-case", "2:7", "the key knuth84 differs from Knuth84, at 1:7, in small and large letters alone", "to BibTeX they are the same: give one of them another key"),
    ("unknown-crossref", "1:37", "no entry has the key l, which `crossref` names", "if it is in another file, check both together"),
    ("unknown-type", "1:2", "the entry type `artcle` is not known", "did you mean `article`?"),
    ("unknown-field", "1:10", "the field `auhtor` is not known", "did you mean `author`?"),
    ("empty-field", "1:20", "the field `author` is empty", "fill it in, or take it out"),
    ("odd-date", "1:31", "the year 20144 has 5 digits", "a year has four digits"),
    ("odd-pages", "1:35", "the pages 45--12 end before they begin", "write the smaller number first"),
];

/// What `bib check --list` shows of a lint has just that lint, in these words. One file alone does not have a key
/// of two.
#[test]
fn examples_of_lints() {
    let of_one = |about: &&About| about.lint != Lint::KeyInTwoFiles;
    let mut words = WORDS.iter();
    for about in LINTS.iter().filter(of_one) {
        let found = findings(about.example.as_bytes()).into_iter();
        let is_lint = |finding: &Finding| matches!(finding.code, Code::Lint(_));
        let found: Vec<_> = found.filter(|(_, finding)| is_lint(finding)).collect();
        let [(place, finding)] = &found[..] else {
            panic!("{}: {found:?}", about.name);
        };
        assert_eq!(finding.code, Code::Lint(about.lint));
        let hint = finding.hint.as_deref().unwrap_or_default();
        let said = (about.name, place.as_str(), finding.message.as_str(), hint);
        assert_eq!(Some(&said), words.next());
    }
    assert_eq!(words.next(), None);
}

/// The hints of all findings.
fn hints(file: &str) -> Vec<String> {
    let found = findings(file.as_bytes()).into_iter();
    found.filter_map(|(_, finding)| finding.hint).collect()
}

/// A hint, a file that it is for, and one like it where it must not appear.
const HINTS: [(&str, &str, &str); 67] = [
    (
        "the entry has no key: write `@article{KEY,` before its first field",
        "@article{\n  author = {A},\n}",
        "@article{author,\n  author = {A,\n}",
    ),
    (
        "the entry has no key: write `@article{KEY,` before its first field",
        "@article{author={A. Author}, title={T}}",
        "@article{k1=2, title}",
    ),
    (
        "typographic quotation marks delimit nothing: write \"..\" or {..}",
        "@book{k, title = “A B”}",
        "@book{k, title = A “B”}",
    ),
    (
        "a value that is not one number or one name stands in braces: write {12--34}",
        "@book{k, pages = 12--34, year = 1}",
        "@book{k, pages = {12--34} year = 1}",
    ),
    (
        "a value that is not one number or one name stands in braces: write {1.2.3}",
        "@book{k, number = 1.2.3}",
        "@book{k, number = {1.2.3}, x}",
    ),
    (
        "BibTeX also takes ( and ) as delimiters, but this reader does not: write { and }",
        "@book(k, title = {T})",
        "@book[k, title = (T)]",
    ),
    (
        "BibTeX joins strings by # here, but this reader does not: write one string, or another @preamble",
        "@preamble{\"a\" # \"b\"}",
        "@preamble{\"a\" + \"b\"}",
    ),
    (
        "BibTeX also takes a preamble in braces, but this reader does not: write @preamble{\"..\"}",
        "@preamble{{a}}",
        "@preamble{a}",
    ),
    (
        "one comment may stand here, and this reader refuses a second in a row: make one of them",
        "@book{k, % a\n % b\n title = {T}}",
        "@book{k, % a\n = {T}}",
    ),
    (
        "BibTeX takes a quotation mark inside braces inside quotation marks, but this reader ends the value there: write the value in braces",
        "@book{k, title = \"A {\"B\"} C\"}",
        "@book{k, title = \"A {B} \"C}",
    ),
    (
        "a quotation mark inside the value ends it: write the value in braces",
        "@book{k, title = \"A \"B\" C\"}",
        "@book{k, title = {A} \"B\"}",
    ),
    (
        "the backslash at 2:20 keeps the `}` behind it from closing the value: write `/` for it, or a blank behind it",
        "@book{k,\n  file = {C:\\papers\\},\n  year = 1997\n}",
        "@book{k,\n  file = {C:\\papers,\n  title = {\\}}",
    ),
    (
        "this looks like HTML or XML: perhaps a web page was saved in place of the file",
        "<!DOCTYPE html>\n<p>\n",
        "< not HTML",
    ),
    ("this looks like JSON, not BibTeX", "{\"items\": []}", "{ items }"),
    ("this looks like RIS, not BibTeX", "TY  - JOUR\nER  -\n", "TYPE\n"),
    (
        "its lines end in CR alone, so that the first \"%\" makes a comment of all that follows: try `tr '\\r' '\\n'`",
        "% mine\r@book{k, title = {T}}\r",
        "% mine\r\n",
    ),
    (
        "the brace opened at 2:11 may lack its `}`",
        "@book{k,\n  title = {T,\n  year = 1997\n}\n",
        "@book{k,\n  title = {T},\n  year = 1997\n",
    ),
    (
        "the brace opened at 2:11 may lack its `}`",
        "@book{k,\n  title = {T,\n  year = {1997\n}\n",
        "@book{k,\n  title = {T}\n  year = {1997}\n}\n",
    ),
    (
        "the quotation mark opened at 2:11 may lack its closing one",
        "@book{k,\n  title = \"T,\n  year = \"1997\"\n}\n",
        "@book{k,\n  title = \"T\" x,\n  year = \"1997\"\n}\n",
    ),
    ("its closing `}` is missing", "@book{k,\n  title = {T}\n", "@book{k\n  title = {T}\n}"),
    (
        "a comma is missing behind the value of `title`",
        "@book{k,\n  title = {T}\n  year = 1997\n}",
        "@book{k,\n  title = {T} and year\n}",
    ),
    (
        "a comma is missing behind the key k",
        "@book{k\n  title = {T}\n}",
        "@book{k l, title = {T}}",
    ),
    (
        "a key has no blanks in it: it ends behind Smith",
        "@book{Smith 2001, title = {T}}",
        "@book{Smith title = {T}}",
    ),
    (
        "BibTeX takes an entry without fields so, but this reader wants a comma: write `{k,}`",
        "@book{k}",
        "@book{k; l}",
    ),
    (
        "outside entries an \"@\" begins an entry, in running text too: put the text behind a \"%\"",
        "mail me@example.org\n@book{k,}",
        "@example.org\n@book{k,}",
    ),
    (
        "BibTeX takes an @comment without braces, but this reader does not: write @comment{..}",
        "@Comment LocalWords: a b\n@book{k,}",
        "@commentary LocalWords: a b\n@book{k,}",
    ),
    (
        "entry k (line 1) is not closed before this \"@\"",
        "@book{k, title = {T}\n  @book{l, title = {T}}",
        "@book{k, title = {T}\n  book{l, title = {T}}",
    ),
    (
        "the field `title` has no value: write `title = {}`, or take it out",
        "@book{k, title = , year = 1997}",
        "@book{k, title = ~, year = 1997}",
    ),
    (
        "if this belongs to the value before, the brace at 1:20 closed it too early",
        "@book{k, title = {A} B}, year = 1997}",
        "@book{k, title = A B, year = 1997}",
    ),
    (
        "the name of a field has no blanks in it",
        "@book{k, date added = {T}}",
        "@book{k, date {T}}",
    ),
    (
        "its closing `\"}` is missing",
        "@preamble{\n@book{k,}",
        "@string{a = 1\n@book{k,}",
    ),
    (
        "the backslash at 2:20 keeps the `\"` behind it from closing the value: write `/` for it, or a blank behind it",
        "@book{k,\n  file = \"C:\\papers\\\",\n  year = 1997\n}",
        "@book{k,\n  file = \"C:\\papers\\\\,\n  year = 1997\n}",
    ),
    (
        "a key has no control characters in it",
        "@book{a\u{1b}b, title = {T}}",
        "@book{a\tb, title = {T}}",
    ),
    (
        "entry k (line 1) is not closed before this \"@\"",
        "@book{k, title = {T},\n  @book{l, title = {T}}",
        "@book{k, title = {T},\n  !book{l, title = {T}}",
    ),
    (
        "there is a comma too many",
        "@book{k, title = {T},, year = 1997}",
        "@book{k, title = {T}, # year = 1997}",
    ),
    ("the field has no name", "@book{k, = {T}}", "@book{k, \"T\"}"),
    (
        "an equals sign is missing behind `title`",
        "@book{k, title {T}}",
        "@book{k, title, year = 1997}",
    ),
    (
        "the field `title` has no value",
        "@book{k, title, year = 1997}",
        "@book{k, title {T}}",
    ),
    (
        "a value stands in braces or quotation marks, or is one number or one name",
        "@book{k, title = 'T'}",
        "@book{k, title = }",
    ),
    (
        "the comment goes on to its first \"}\": if an entry begins here, close it before",
        "@comment{\n@book{k,}\n@book{l,}",
        "@book{k, t = {\n@book}}",
    ),
    (
        "put a blank before it, so that damage elsewhere in the file does not reach it",
        "@book{k, t = {\n@book}}",
        "@comment{\n@book{k,}\n@book{l,}",
    ),
    (
        "the entry before it may have been closed too early",
        "@book{k, a = 1}, b = 2}",
        "a = {1},\nb = 2\n@book{k, a = 1}",
    ),
    (
        "the last definition counts, for uses before it too",
        "@string{a = 1}\n@string{a = 2}",
        "@book{k, a = 1, a = 2}",
    ),
    (
        "the brace that opens the value may be closed too late",
        "@book{k,\n  a = {A,\n  b = {B}}\n}",
        "@book{k,\n  a = \"A,\n  b = {B}\"\n}",
    ),
    (
        "the quotation mark that opens the value may be closed too late",
        "@book{k,\n  a = \"A,\n  b = {B}\"\n}",
        "@book{k,\n  a = {A,\n  b = {B}}\n}",
    ),
    (
        "the entry before it was begun and not closed",
        "@book{\n@book{k, a = 1}",
        "@book{year=1997, a = 1}",
    ),
    (
        "put a key and a comma before it",
        "@book{year=1997, a = 1}",
        "@book{\n@book{k, a = 1}",
    ),
    (
        "typographic quotation marks delimit nothing: write \"..\" or {..}",
        "@book{k, title = “T”}",
        "@book{k, title = {“T”}, title = {T}}",
    ),
    (
        "perhaps it is ISO-2022-JP: try `iconv -f ISO-2022-JP -t UTF-8`",
        "@book{k, url = {\u{1b}$B4A;z\u{1b}(B}}",
        "@book{k, a = {\u{1b}[2J}, a = 1}",
    ),
    (
        "damage reaches to the next \"@\" that begins a line: put no blanks and no other entry before this one",
        "@book{k, a = 1} @book{l, )}",
        "@book{k, a = 1}\n@book{l, )}",
    ),
    (
        "a comma is missing behind the value of `title`",
        "@book{k, title = {T} year = 1997}",
        "@book{k, title = {T} and year}",
    ),
    (
        "a comma is missing behind the value of `year`",
        "@book{k, year = 1997 month = jan}",
        "@book{k, year = 1997 or so}",
    ),
    (
        "a list of names is one value: write \"A and B\"",
        "@book{k, author = \"A\" and \"B\"}",
        "@book{k, author = \"A\" of \"B\"}",
    ),
    (
        "a brace is missing behind the type: write `@article{a14,`",
        "@article a14,\n  title = {T}\n}",
        "@work a14\n  title = {T}\n}",
    ),
    (
        "no blank stands between the \"@\" and the type",
        "@ book{k, title = {T}}",
        "@{k, title = {T}}",
    ),
    (
        "this line was left by a merge: keep one of the two versions, and take the lines of `<`, `=` and `>` out",
        "@book{k,\n<<<<<<< HEAD\n  year = 1,\n=======\n  year = 2,\n>>>>>>> mine\n}",
        "@book{k,\n<<< HEAD\n  year = 1,\n}",
    ),
    (
        "a list of names is one value: write {A and B}",
        "@book{k, author = {A} and {B}}",
        "@book{k, title = {A} and {B}}",
    ),
    (
        "a list of names is one value: write \"A and B\"",
        "@book{k,\n  author = \"A\"\n  AND \"B\"}",
        "@book{k, author = \"A\" or \"B\"}",
    ),
    (
        "a list of names is one value: write \"A and B\"",
        "@book{k, author = \"A\", \"B\"}",
        "@book{k, title = \"A\", \"B\"}",
    ),
    (
        "a comma stands behind the value of `title`, and no `;`",
        "@book{k, title = {T}; year = 1997}",
        "@book{k, title = {T}; 1997}",
    ),
    (
        "a comma stands behind a key, and no semicolon: write `k,`",
        "@book{k;\n  title = {T}}",
        "@book{k\n  title = {T}}",
    ),
    (
        "a key stands without braces around it, or in it",
        "@book{{k}, title = {T}}",
        "@book{k}",
    ),
    (
        "there is an \"@\" too many",
        "@@book{k, title = {T}}",
        "@ book{k, title = {T}}",
    ),
    (
        "no blank stands between the \"@\" and the type",
        "@ string{a = 1}",
        "@(a = 1)",
    ),
    (
        "a brace is missing behind the type: write `@article{a14,`",
        "@article[a14, title = {T}]",
        "@home[a14 title = {T}]",
    ),
    (
        "a brace is missing behind the type: write `@article{a14,`",
        "@article a14\n  title = {T}\n}",
        "@home a14\n  title = {T}\n}",
    ),
    (
        "the value has escape sequences: the file may be ISO-2022-JP",
        "@book{k, a = \"\u{1b}$x\"}",
        "@book{k, a = {$x$}, a = 1}",
    ),
];

#[test]
fn hints_where_they_belong() {
    for (hint, file, without) in HINTS {
        assert_eq!(hints(file)[..1], [hint], "{file}");
        assert!(!hints(without).contains(&hint.to_string()), "{without}");
        assert_ne!(
            findings(without.as_bytes()),
            [],
            "nothing is wrong in {without}"
        );
    }
}

/// Files, and where and how the commonest mistakes in them are said.
const ERRORS: [(&str, &str, &str); 10] = [
    (
        "@a{k,\n  t = {x}\n  u = {y}\n}",
        "2:10",
        "expected a comma, in entry k (line 1)",
    ),
    (
        "@a{k, t = {x\n\n@c{k,}",
        "1:11",
        "entry k (line 1) is not closed",
    ),
    (
        "\n@a{k,\n  t = {x\n\n@c{k,}",
        "3:7",
        "entry k (line 2) is not closed",
    ),
    (
        "@a{k,\n  t = {x}\n\n@c{k,}",
        "1:1",
        "entry k (line 1) is not closed",
    ),
    (
        "@a{k,}\n@string{b = {x}\n",
        "2:1",
        "@string (line 2) is not closed",
    ),
    ("@comment{ x\n", "1:1", "@comment (line 1) is not closed"),
    (
        "@preamble{\"x\n",
        "1:11",
        "@preamble (line 1) is not closed",
    ),
    ("@a{x\n@b{k,}", "1:1", "entry x (line 1) is not closed"),
    ("@a", "1:3", "expected an opening brace"),
    ("@a{k,} @b{l, t = }", "1:18", "expected a value, in entry l"),
];

#[test]
fn places_of_errors() {
    for (file, place, message) in ERRORS {
        let found = findings(file.as_bytes());
        assert_eq!(
            (found[0].0.as_str(), found[0].1.message.as_str()),
            (place, message),
            "{file}"
        );
    }
}

/// The number and the bytes are those of the row, wherever the mark is: here the letter before which a comma
/// is missing, and the end of a piece.
#[test]
fn numbers_and_bytes() {
    let file = b"@a{k,\n  t = {x}\n  u = {y}\n}\n@b{k, t = {x\n\n@c{k,}";
    let rows = bib::salvage(file).unwrap();
    let causes = rows.iter().filter(|row| row.kind == bib::Kind::Cause);
    let found = findings(file);
    let bytes = found
        .iter()
        .map(|(_, finding)| (finding.start, finding.end));
    assert!(bytes.eq([(18, 19), (42, 42)]));
    for ((_, finding), cause) in found.iter().zip(causes) {
        assert_eq!((finding.start, finding.end), (cause.start, cause.end));
        assert!(matches!(finding.code, Code::Refusal(reason) if reason.number() == cause.detail));
        assert_eq!(
            (finding.level(), finding.key.as_deref()),
            (Level::Error, Some("k"))
        );
    }
}

/// The guess is said once, and each entry that is damaged is named.
#[test]
fn encodings() {
    let latin = b"@a{k, t = {G\xfcnther}}\n@b{l, t = {M\xfcller}}\n@c{m, t = }";
    let found = findings(latin);
    let messages: Vec<&str> = found
        .iter()
        .map(|(_, finding)| finding.message.as_str())
        .collect();
    assert_eq!(
        messages,
        [
            "bytes that are not UTF-8, in entry k, and in one more piece of the file",
            "bytes that are not UTF-8, in entry l",
            "expected a value, in entry m"
        ]
    );
    assert_eq!(found[0].0, "1:13");
    let keys = found.iter().map(|(_, finding)| finding.key.as_deref());
    assert!(keys.eq([Some("k"), Some("l"), Some("m")]));
    assert_eq!(found[1].1.hint, None);
    let hint = |file: &[u8]| findings(file)[0].1.hint.clone().unwrap_or_default();
    assert!(hint(latin).ends_with("try `iconv -f WINDOWS-1252 -t UTF-8`"));
    let cyrillic = b"@a{k, t = {\xcf\xf0\xe8\xe2\xe5\xf2}}";
    assert!(hint(cyrillic).ends_with("try `iconv -f WINDOWS-1251 -t UTF-8`"));
    let utf16: Vec<u8> = "@a{k,}\n@b{l,}"
        .encode_utf16()
        .flat_map(u16::to_le_bytes)
        .collect();
    assert!(hint(&utf16).ends_with("try `iconv -f UTF-16LE -t UTF-8`"));
    let turned: Vec<u8> = utf16.chunks(2).flat_map(|two| [two[1], two[0]]).collect();
    assert!(hint(&turned).ends_with("try `iconv -f UTF-16BE -t UTF-8`"));
    assert!(hint(&[b"\xff\xfe", &utf16[..]].concat()).ends_with("try `iconv -f UTF-16 -t UTF-8`"));
    // Each of its entries is named.
    let keys = findings(&utf16).into_iter().map(|(_, finding)| finding.key);
    assert!(keys.eq([None, Some("k".to_string()), Some("l".to_string())]));
    let one = findings(b"@a{k, t = {G\xfc}}");
    assert_eq!(one[0].1.message, "bytes that are not UTF-8, in entry k");
    assert_eq!(one[0].1.key.as_deref(), Some("k"));
}

#[test]
fn counts_and_stops() {
    let counts = check(b"@a{k,}\n@b{x\n@c{l,}", |_, _| Ok::<(), ()>(()));
    let want = Counts {
        sound: 2,
        damaged: 1,
        ..Counts::default()
    };
    assert_eq!(counts, Ok(want));
    let stopped = check(b"@a{\n@b{\n", |finding, _| Err(finding.start));
    assert_eq!(stopped, Err(Stop::Caller(4)));
    let long = vec![b' '; bib::MOST_BYTES + 1];
    assert_eq!(
        findings(&long)[0].1.code,
        Code::Refusal(bib::Reason::TooLong)
    );
}

/// The table of README.md: what BibTeX takes and this reader refuses, and what to write instead.
#[test]
fn valid_bibtex_that_is_refused() {
    let pairs = [
        ("@book(k, title = {T})", "@book{k, title = {T}}"),
        ("@book{k}", "@book{k,}"),
        ("@preamble{\"a\" # \"b\"}", "@preamble{\"ab\"}"),
        ("@preamble{{a}}", "@preamble{\"a\"}"),
        (
            "@book{k, title = \"The {\"Big\"} Book\"}",
            "@book{k, title = {The {\"Big\"} Book}}",
        ),
        ("@comment some words", "@comment{some words}"),
    ];
    for (refused, accepted) in pairs {
        assert!(!bib::accepts(refused.as_bytes()), "{refused}");
        assert!(bib::accepts(accepted.as_bytes()), "{accepted}");
        assert!(hints(refused)[0].starts_with("BibTeX "), "{refused}");
    }
    // Here it is resolving that refuses.
    let definition = "@string{acm = {ACM}}@book{k, publisher = ";
    assert!(hints(&format!("{definition}ACM}}"))[0].starts_with("BibTeX "));
    assert!(hints(&format!("{definition}acm}}")).is_empty());
}

/// No bytes make it fail, and every place is one of the file.
#[test]
fn any_bytes() {
    const PARTS: [&[u8]; 28] = [
        b"@a{k,",
        b"@string{",
        b"@comment{",
        b"@preamble{\"",
        b"}",
        b"\n",
        b"\r",
        b"\"",
        b"{",
        b"=",
        b",",
        b"%",
        b"\\",
        b" and ",
        b"author = {",
        b"a = 1",
        b"\xff",
        b"\xe2\x82",
        b"\0",
        b"\x1b$B",
        "\u{feff}".as_bytes(),
        "“".as_bytes(),
        b"1.2",
        b"@",
        b"$",
        b"a = b # \"\\'{",
        b"b = a",
        b"url = ",
    ];
    let mut state = 5u64;
    let mut draw = |below: usize| {
        state = state
            .wrapping_mul(6364136223846793005)
            .wrapping_add(1442695040888963407);
        (state >> 33) as usize % below
    };
    for _ in 0..100_000 {
        let length = draw(16);
        let file: Vec<u8> = (0..length)
            .flat_map(|_| PARTS[draw(PARTS.len())])
            .copied()
            .collect();
        for (_, finding) in findings(&file) {
            assert!(
                finding.start <= finding.end && finding.end <= file.len(),
                "{file:?}"
            );
            assert!(
                finding.mark <= file.len() && !finding.message.is_empty(),
                "{file:?}"
            );
        }
    }
}
