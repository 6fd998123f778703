//! What resolving refuses in what is sound, as `check` says it.

use bib::check::{check, check_reading, Code, Finding, Lints, Reading, ERRORS};
use bib::Reason;

/// All errors, each with its line and column.
fn errors(file: &[u8]) -> Vec<(String, Finding)> {
    let mut seen = Vec::new();
    let checked = check(file, |finding, lines| {
        if let Code::Refusal(_) = finding.code {
            seen.push((lines.place(finding.mark), finding.clone()));
        }
        Ok::<(), ()>(())
    });
    assert!(checked.is_ok(), "{checked:?}");
    seen
}

/// The number, the place and the words of each error.
fn said(file: &str) -> Vec<(u32, String, String)> {
    let all = errors(file.as_bytes()).into_iter();
    all.map(|(place, finding)| {
        let Code::Refusal(reason) = finding.code else {
            unreachable!("it is an error");
        };
        (reason.number(), place, finding.message)
    })
    .collect()
}

/// A file has one error, with this number, place, message and beginning of the hint; the other has none.
#[track_caller]
fn one(file: &str, want: (u32, &str, &str, &str), without: &str) {
    let all = errors(file.as_bytes());
    let numbers = said(file);
    assert_eq!(all.len(), 1, "{numbers:?}");
    let (number, place, message, hint) = want;
    assert_eq!(numbers[0], (number, place.to_string(), message.to_string()));
    let seen = all[0].1.hint.as_deref().unwrap_or_default();
    assert!(seen.starts_with(hint), "{seen}");
    assert_eq!(said(without), [], "{without}");
}

#[test]
fn unknown_names() {
    let want = (
        12,
        "1:14",
        "a name without a definition: `acm`, in entry k",
        "put a text into braces: {acm}; or define the name in this file: @string{acm = {..}}",
    );
    one(
        "@book{k, t = acm}",
        want,
        "@book{k, t = acm}@string{acm = 1}",
    );
    let want = (
        12,
        "2:14",
        "a name without a definition: `ACM`, in entry k",
        "BibTeX takes it for `acm`, defined at 1:9, but here",
    );
    let file = "@string{acm = 1}\n@book{k, t = ACM}";
    one(file, want, "@string{acm = 1}\n@book{k, t = acm}");
    let want = (
        12,
        "1:14",
        "a name without a definition: `“T”`, in entry k",
        "typographic quotation marks delimit nothing",
    );
    one(
        "@book{k, t = “T”}",
        want,
        "@string{“T” = 1}@book{k, t = “T”}",
    );
}

/// English months are known, in the ways that they are written.
#[test]
fn months() {
    for month in ["jan", "may", "May", "DEC", "september", "October"] {
        assert_eq!(said(&format!("@book{{k, month = 3 # {month}}}")), []);
    }
    assert_eq!(said("@book{k, month = mai}").len(), 1);
}

/// Each definition of a circle is said, and not their uses.
#[test]
fn cyclic_names() {
    let want = (
        13,
        "1:13",
        "a name that is used in its own definition: `a`, in @string",
        "a definition must not lead back to its own name",
    );
    let file = "@string{a = a}\n@book{k, t = a, u = a}";
    one(file, want, "@string{a = 1, b = a # a}\n@book{k, t = b}");
    let file = "@string{a = b}\n@string{b = a}\n@book{k, t = a}";
    let places: Vec<String> = said(file).into_iter().map(|error| error.1).collect();
    assert_eq!(places, ["1:13", "2:13"]);
}

#[test]
fn braces_too_many() {
    let want = (
        11,
        "1:16",
        "unexpected closing brace, in entry k",
        "take it out, or write \\}",
    );
    one("@book{k, t = \"a}\"}", want, "@book{k, t = \"a\\}\"}");
    let hint = "a brace that is opened between two `$`";
    let want = (11, "1:18", "unexpected closing brace, in entry k", hint);
    one("@book{k, t = {${$}}}", want, "@book{k, t = {${}$}}");
}

#[test]
fn texts_that_end_too_early() {
    let want = (
        3,
        "1:16",
        "the text ends too early, in entry k",
        "the `$` at 1:16 begins a formula that does not end",
    );
    one("@book{k, t = {5$ off}}", want, "@book{k, t = {5\\$ off}}");
    let hint = "in the argument of a command a brace counts";
    let want = (3, "1:19", "the text ends too early, in entry k", hint);
    one("@book{k, t = {\\a{\\}}}}", want, "@book{k, t = {\\a{x}}}");
    // A verbatim field has neither formulas nor commands.
    assert_eq!(said("@book{k, URL = {5$ off \\a{\\}}}}"), []);
}

#[test]
fn names_too_deep() {
    let chain = |length: usize| {
        let mut file = String::from("@string{a0 = {x}}\n");
        for n in 1..length {
            file += &format!("@string{{a{n} = a{}}}\n", n - 1);
        }
        file + &format!("@book{{k, t = a{}}}", length - 1)
    };
    let want = (
        14,
        "2:14",
        "too many names or arguments of commands inside each other, in `t` of entry k (line 34)",
        "at most 32 definitions may lead from one to the next",
    );
    one(&chain(33), want, &chain(32));
    let nested = |depth: usize| {
        let (open, close) = ("\\a{".repeat(depth), "}".repeat(depth));
        format!("@book{{k, t = {{{open}{close}}}}}")
    };
    let want = (
        14,
        "1:209",
        "too many names or arguments of commands inside each other, in entry k",
        "arguments of commands stand at most 64 deep",
    );
    one(&nested(65), want, &nested(64));
}

#[test]
fn names_too_many() {
    let names = |count: usize| {
        let all = vec!["a"; count].join("#");
        format!("@string{{a = 1}}@book{{k, t = {all}}}")
    };
    let want = (
        15,
        "1:8220",
        "more than 4,096 names in one field, in entry k",
        "those of its definitions count too",
    );
    one(&names(4097), want, &names(4096));
}

#[test]
fn literals_too_long() {
    let value = |length: usize| format!("@book{{k, t = {{{}}}}}", "x".repeat(length));
    let want = (
        1,
        "1:15",
        "a literal is longer than 16,384 bytes, in entry k",
        "join it of shorter ones by #: {..} # {..}",
    );
    one(&value(16_385), want, &value(16_384));
}

/// A refusal inside a definition is said once, however many use it.
#[test]
fn definitions_once() {
    let want = (
        11,
        "1:15",
        "unexpected closing brace, in @string",
        "take it out",
    );
    let uses = "@string{a = \"x}\"}\n@book{k, t = a, u = a}\n@string{b = a}";
    one(uses, want, "@string{a = \"x\"}\n@book{k, t = a}");
    // The definition is sound by itself, but not where a verbatim field uses it.
    let want = (
        11,
        "1:15",
        "unexpected closing brace, in `url` of entry k (line 2)",
        "take it out",
    );
    let uses = "@string{a = \"$}$\"}\n@book{k, t = a, url = a}\n@book{l, url = a}";
    one(uses, want, "@string{a = \"$}$\"}\n@book{k, t = a}");
}

/// Damaged pieces count as blanks: other authors' fields are resolved.
#[test]
fn damaged_pieces() {
    let file = b"@a{k, t = \xff}\n@book{k, t = acm}\n@c{k\n@string{b = 1}";
    let all: Vec<_> = errors(file)
        .into_iter()
        .map(|(place, finding)| (place, finding.code))
        .collect();
    let code = |number| Code::Refusal(Reason::of(number).unwrap());
    let want = [("1:11", 2), ("2:14", 12), ("3:1", 7)];
    assert_eq!(
        all,
        want.map(|(place, number)| (place.into(), code(number)))
    );
}

/// Where definitions are damaged, the names without one are said once, with their number.
#[test]
fn damaged_definitions() {
    let entries = "@book{k, t = acm, u = cj # may}\n@book{l, t = acm}\n@book{m, t = \"}\"}";
    let file = format!("@String{{acm = {{A}} cj = {{C}}}}\n{entries}");
    let messages: Vec<(u32, String)> = said(&file).into_iter().map(|one| (one.0, one.2)).collect();
    let unknown = "a name without a definition: `acm`, in entry k, and 2 more uses of such names";
    let want = [
        (7, "expected a comma, in @string"),
        (12, unknown),
        (11, "unexpected closing brace, in entry m"),
    ];
    assert_eq!(messages, want.map(|(number, text)| (number, text.into())));
    let hint = errors(file.as_bytes())[1].1.hint.clone();
    let want = "@string (line 1) is damaged, and may have defined it: mend that first";
    assert_eq!(hint.as_deref(), Some(want));
    // Another damaged piece takes no definitions away.
    assert_eq!(said(&format!("@a{{k}}\n{entries}")).len(), 5);
}

/// Only what was resolved can be refused.
#[test]
fn without_resolving() {
    let file = b"@book{k, t = acm}";
    let mut count = 0;
    let count_all = |_: &Finding, _: &bib::check::Lines| {
        count += 1;
        Ok::<(), ()>(())
    };
    check_reading(file, &Reading::of(file), Lints::ALL, count_all).unwrap();
    assert_eq!(count, 0);
}

/// The bytes of an error are document 01's.
#[test]
fn places() {
    let all = errors(b"@book{k, t = acm # \"$x\"}");
    let places: Vec<_> = all.iter().map(|(_, one)| (one.start, one.end)).collect();
    assert_eq!(places, [(13, 16)]);
    let all = errors(b"@book{k, t = \"$x\"}");
    assert_eq!((all[0].1.start, all[0].1.mark), (16, 14));
    assert_eq!(all[0].1.key.as_deref(), Some("k"));
}

/// What `bib check --list` shows of an error has just that error.
#[test]
fn examples_of_errors() {
    for (number, about) in (1..).zip(&ERRORS) {
        assert_eq!(about.reason.number(), number);
        let found: Vec<u32> = said(about.example).into_iter().map(|one| one.0).collect();
        let want = Some(number).filter(|_| !about.example.is_empty());
        assert!(found.iter().copied().eq(want), "{number}: {found:?}");
    }
}
