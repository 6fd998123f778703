//! `bib show` and `bib write`: entries with their fields resolved.

use crate::run::{bib, shell, Run, Scratch};

const FILE: &str = "\
@string{cj = {The Computer {J}ournal}}
@Article{knuth84,
  Author = \"Knuth, D. E. and G\\\"odel, K.\",
  title = {Literate -- {Programming} in $\\pi$},
  journal = cj # {, } # may,
  URL = {http://a.b/c--d_e$},
}
@book{,}
@misc{k, month = Feb}
";

#[test]
fn show() {
    let all = "\
Article knuth84
  Author   Knuth, D. E. and Gödel, K.
  title    Literate – Programming in $\\pi$
  journal  The Computer Journal, May
  URL      http://a.b/c--d_e$

book (no key)

misc k
  month  February
";
    bib(&["show"], FILE.as_bytes()).is(0, all);
    let file = Scratch::new("show.bib", FILE.as_bytes());
    bib(&["show", file.name()], b"").is(0, all);
    bib(&["show", "-", "k"], FILE.as_bytes()).is(0, "misc k\n  month  February\n");
    // In file order, once.
    let run = bib(&["show", "-", "k", "knuth84", "k"], FILE.as_bytes());
    assert_eq!(run.status, Some(0));
    assert!(run.text().starts_with("Article knuth84\n") && run.text().ends_with("February\n"));
    assert_eq!(run.text().matches("misc k").count(), 1);
}

const TITLES: &str = "\
@string{tug = {TUGboat}}
@Article{a,
  Title = {on the {NASA} Archive: $X$ of Mars},
  SUBTITLE = \"{\\\"U}bersicht: an Essay\",
  shorttitle = {Archives},
  titleaddon = {With a Foreword},
  journal = {The Computer Journal},
  journaltitle = tug # { Of } # tug,
  issuetitle = tug # { Of } # tug,
  series = {Lecture Notes},
  eventtitle = {A Conference},
  note = {In Print},
}
@periodical{b, title = {The Computer Journal}, issuetitle = {The Best Of}}
@inbook{c, booktitle = {THE BOOK}, booksubtitle = {MORE}, maintitle = {ALL}, mainsubtitle = {ON}}
";

/// Titles of works are shown in sentence case where that is asked for, and nothing else is.
#[test]
fn show_sentences() {
    let all = "\
Article a
  Title         On the NASA archive: $X$ of mars
  SUBTITLE      Übersicht: an essay
  shorttitle    Archives
  titleaddon    With a Foreword
  journal       The Computer Journal
  journaltitle  TUGboat Of TUGboat
  issuetitle    Tugboat of tugboat
  series        Lecture Notes
  eventtitle    A Conference
  note          In Print

periodical b
  title       The Computer Journal
  issuetitle  The best of

inbook c
  booktitle     The book
  booksubtitle  More
  maintitle     All
  mainsubtitle  On
";
    bib(&["show", "--sentence"], TITLES.as_bytes()).is(0, all);
    let plain = bib(&["show"], TITLES.as_bytes());
    assert!(plain.text().contains("  booktitle     THE BOOK\n"));
    for word in ["--sentence=1", "--sentnce"] {
        let err = format!(
            "bib: `{word}` is not known, did you mean `--sentence`? `bib --help` shows what can be asked\n"
        );
        bib(&["show", word], b"").says(2, &err);
    }
}

/// With places, and as JSON, where the chunks are as in the file.
#[test]
fn show_sentences_otherwise() {
    let file = b"@a{k, title = {The {X} Y}, note = {The Y}}";
    let places = "1:1  a k\n1:7    title  The X y\n1:28   note   The Y\n";
    bib(&["show", "--places", "--sentence"], file).is(0, places);
    let run = bib(&["show", "--json", "--sentence"], file);
    let title = r#""text":"The X y","chunks":[{"kind":"normal","text":"The ","#;
    let note = r#""text":"The Y","chunks":[{"kind":"normal","text":"The Y","#;
    assert!(run.text().contains(title), "{}", run.text());
    assert!(run.text().contains(note), "{}", run.text());
    // What cannot be resolved is said as ever.
    let run = bib(&["show", "--sentence"], b"@a{k, title = {The } # no}");
    assert_eq!(run.status, Some(1));
    assert!(run.text().starts_with("a k\n  title  (not resolved)\n"));
}

/// The example of the page of the manual.
#[test]
fn sentence_of_the_manual() {
    let page = include_str!("../../share/bib.1").replace("\\-", "-");
    let (_, section) = page.split_once(".SH SENTENCE CASE").expect("it is there");
    let mut examples = section.split(".nf\n").skip(1);
    let mut example = || {
        let text = examples.next().and_then(|text| text.split(".fi\n").next());
        text.expect("it is an example")
    };
    let (field, shown) = (example(), example());
    let file = format!("@book{{k, {field}}}");
    let want = format!("book k\n  title  {shown}");
    bib(&["show", "--sentence"], file.as_bytes()).is(0, &want);
}

/// An unknown key is a sentence; the others are shown.
#[test]
fn show_unknown_keys() {
    let run = bib(&["show", "-", "knuth48", "k", "x\x1b"], FILE.as_bytes());
    let want = Run {
        status: Some(1),
        out: b"misc k\n  month  February\n".to_vec(),
        err: "\
bib: no entry of <stdin> has the key `knuth48`, did you mean `knuth84`?
bib: no entry of <stdin> has the key `x\\u{1b}`
"
        .into(),
    };
    assert_eq!(run, want);
}

/// What is wrong in a definition is said for each of its uses in the same words, however long it is.
#[test]
fn show_uses_of_a_definition() {
    for filler in [0, 20, 60, 70, 9_000] {
        let filler = "x".repeat(filler);
        let file = format!(
            "@string{{c={{$a {filler}}},b={{a ${{b$ {filler} }}}}}}\n@a{{k,t=b,u=b,v=c,w=c}}\n"
        );
        let run = bib(&["show"], file.as_bytes());
        let lines = |part: &'static str| run.text().lines().filter(move |line| line.contains(part));
        let brace = "  hint: a brace that is opened between two `$` must be closed between them";
        let formula =
            "  hint: the `$` at 1:12 begins a formula that does not end: write \\$ where a dollar is meant";
        let hints: Vec<_> = lines("hint:").collect();
        assert_eq!(hints, [brace, brace, formula, formula]);
        for part in ["`t` of", "`u` of", "`v` of", "`w` of"] {
            let line = lines(part).next().expect("it is said");
            assert!(line.contains(", in ") && line.ends_with(")"), "{line}");
            assert_eq!(lines(part).count(), 1);
        }
    }
}

/// What cannot be resolved is marked, and said with its place.
#[test]
fn show_unresolved() {
    let file = b"@a{k, publisher = acm, t = {x}, u = \"}\"}\n@b{l,}";
    let unknown = "\
<stdin>:1:19: error: a name without a definition: `acm`, in entry k (12)
@a{k, publisher = acm, t = {x}, u = \"}\"}
                  ^
  hint: put a text into braces: {acm}; or define the name in this file: @string{acm = {..}}
";
    let brace = "\
<stdin>:1:38: error: unexpected closing brace, in entry k (11)
@a{k, publisher = acm, t = {x}, u = \"}\"}
                                     ^
  hint: take it out, or write \\} where a brace is meant
";
    let all = format!(
        "\
a k
  publisher  (not resolved)
{unknown}  t          x
  u          (not resolved)
{brace}
b l
"
    );
    bib(&["show"], file).is(1, &all);
    bib(&["show", "-", "l"], file).is(0, "b l\n");
}

/// Damaged pieces are named, and the sound entries shown.
#[test]
fn show_damaged() {
    let file = b"@a{k, t = }\n@b{l, t = {x}}\n@c{m";
    let value = "\
<stdin>:1:11: error: expected a value, in entry k (3)
@a{k, t = }
          ^
  hint: the field `t` has no value: write `t = {}`, or take it out
";
    let run = bib(&["show"], file);
    assert_eq!(run.status, Some(1));
    assert!(run.text().starts_with(value), "{}", run.text());
    assert!(run
        .text()
        .contains(": error: entry m (line 3) is not closed (7)\n"));
    assert!(run.text().ends_with("\n\nb l\n  t  x\n"), "{}", run.text());
    // Of the entries that are asked for.
    bib(&["show", "-", "l"], file).is(0, "b l\n  t  x\n");
    bib(&["show", "-", "k"], file).is(1, value);
}

/// Nothing that is shown steers a terminal.
#[test]
fn show_what_steers() {
    let file = "@a{k\u{200f}, t = {x\u{1b}[2J\u{202e}$\n$}}";
    let want = "a k\u{fffd}\n  t  x\u{241b}[2J\u{fffd}$\u{240a}$\n";
    bib(&["show"], file.as_bytes()).is(0, want);
}

/// What is written of a file, and said on standard error; what is said begins with the file's name.
#[track_caller]
fn writes(file: &[u8], status: i32, out: &str, err: &str) {
    writes_by(&["write"], file, status, out, err);
}

#[track_caller]
fn writes_by(words: &[&str], file: &[u8], status: i32, out: &str, err: &str) {
    let run = bib(words, file);
    let said = run.err.replace("<stdin>: ", "");
    let said = said.replace("<stdin>:", "");
    assert_eq!(
        (run.status, run.text(), said.as_str()),
        (Some(status), out, err)
    );
}

#[test]
fn write() {
    let all = "\
@Article{knuth84,
Author = {Knuth, D. E. and Gödel, K.},
title = {Literate – {Programming} in $\\pi$},
journal = {The Computer {J}ournal, May},
URL = {http://a.b/c--d_e$},
}

@book{,
}

@misc{k,
month = {February},
}
";
    writes(
        FILE.as_bytes(),
        0,
        all,
        "3 entries written, 0 changed, 0 left out\n",
    );
    let file = Scratch::new("write.bib", FILE.as_bytes());
    let run = bib(&["write", file.name()], b"");
    assert_eq!((run.status, run.text()), (Some(0), all));
    let last = format!(
        "{}: 3 entries written, 0 changed, 0 left out\n",
        file.name()
    );
    assert_eq!(run.err, last);
    // What was written is read and written again as it is.
    writes(
        all.as_bytes(),
        0,
        all,
        "3 entries written, 0 changed, 0 left out\n",
    );
    writes(b"", 0, "", "0 entries written, 0 changed, 0 left out\n");
}

/// An entry that cannot be resolved is not written, and a damaged piece neither; both are said.
#[test]
fn write_unresolved() {
    let file = b"@a{k, t = {x}, u = acm}\n@b{l,}\n@c{m, t =}\n@d{n,}";
    let err = "\
3:10: error: expected a value, in entry m (3)
@c{m, t =}
         ^
  hint: the field `t` has no value: write `t = {}`, or take it out
1:20: error: a name without a definition: `acm`, in entry k (12)
@a{k, t = {x}, u = acm}
                   ^
  hint: put a text into braces: {acm}; or define the name in this file: @string{acm = {..}}
2 entries written, 0 changed, 2 left out: m (line 3), k (line 1)
";
    writes(file, 1, "@b{l,\n}\n\n@d{n,\n}\n", err);
}

/// A field that cannot be resolved does not take its entry with it, where that is asked for.
#[test]
fn write_kept() {
    let file = b"@a{k, author = {A}, note = {5$ off} % here\n, u = acm # \"x\", y = 1}";
    let out = "\
@a{k,
author = {A},
note = {5$ off},
u = acm # \"x\",
y = {1},
}
";
    let run = bib(&["write", "--keep"], file);
    assert_eq!((run.status, run.text()), (Some(1), out));
    let lines: Vec<&str> = run
        .err
        .lines()
        .filter(|line| line.starts_with('<'))
        .collect();
    let want = [
        "<stdin>:1:30: error: the text ends too early, in entry k (3)",
        "<stdin>:2:7: error: a name without a definition: `acm`, in entry k (line 1) (12)",
        "<stdin>:1:21: warning: `note` of entry k is written as it stands in the file (kept)",
        "<stdin>:2:3: warning: `u` of entry k is written as it stands in the file (kept)",
        "<stdin>: 1 entry written, 0 changed, 2 fields kept as in the file, 0 left out",
    ];
    assert_eq!(lines, want);
    // It says the same of what it wrote, but for the comment.
    assert_eq!(bib(&["write", "--keep"], out.as_bytes()).text(), out);
    let formula = b"@a{k, t = {x}, u = \"$}$\"}";
    let err = "\
1:16: error: `u` of entry k cannot be written: the braces of its formulas do not match
1:16: warning: `u` of entry k is written as it stands in the file (kept)
1 entry written, 0 changed, 1 field kept as in the file, 0 left out
";
    let out = "@a{k,\nt = {x},\nu = \"$}$\",\n}\n";
    writes_by(&["write", "--keep"], formula, 1, out, err);
    bib(&["write", "--kep"], b"").says(
        2,
        "bib: `--kep` is not known, did you mean `--keep`? `bib --help` shows what can be asked\n",
    );
}

/// For the compositor: some entries, into a file.
#[test]
fn write_some_into_a_file() {
    let file = b"@a{k, t = {x}}\n@b{l, t = }\n@c{m, t = {y}}\n@d{n, t = z}\n";
    let out = "@a{k,\nt = {x},\n}\n\n@c{m,\nt = {y},\n}\n";
    let last = "2 entries written, 0 changed, 0 left out\n";
    writes_by(&["write", "--only", "m,k"], file, 0, out, last);
    writes_by(&["write", "--only=m", "--only=k"], file, 0, out, last);
    let run = bib(&["write", "--only", "k,l,n,mm"], file);
    assert_eq!((run.status, run.text()), (Some(1), "@a{k,\nt = {x},\n}\n"));
    let end = "\
<stdin>: 1 entry written, 0 changed, 2 left out: l (line 2), n (line 4)
bib: no entry of <stdin> has the key `mm`, did you mean `k`?
";
    let end = end.replace("`k`?", "`m`?");
    assert!(run.err.ends_with(&end), "{}", run.err);
    let written = Scratch::new("written.bib", b"before");
    let words = ["write", "-o", written.name(), "--only", "k,m"];
    writes_by(&words, file, 0, "", last);
    assert_eq!(std::fs::read_to_string(&written.0).unwrap(), out);
    let name = written.name();
    shell(&format!(
        "printf '@a{{k,}}' | $BIB write --output={name} >&- 2> /dev/null"
    ))
    .is(0, "");
    assert_eq!(std::fs::read_to_string(&written.0).unwrap(), "@a{k,\n}\n");
    let own = format!("bib: {name} is the file that is read: write another one\n");
    bib(&["write", name, "-o", name], b"").says(2, &own);
    let link = Scratch::new("linked.bib", b"");
    for link_words in ["ln -f", "ln -fs"] {
        shell(&format!("{link_words} {name} {}", link.name())).is(0, "");
        bib(&["write", name, "-o", link.name()], b"").says(2, &own);
    }
    let own = "bib: <stdin> is the file that is read: write another one\n";
    shell(&format!("$BIB write -o {name} < {name}")).says(2, own);
    assert_eq!(std::fs::read_to_string(&written.0).unwrap(), "@a{k,\n}\n");
    let folder = "bib: cannot write /: is a directory\n";
    bib(&["write", "-o", "/"], file).says(2, folder);
    let run = bib(&["write", "-o", "/dev/full"], file);
    assert_eq!(run.status, Some(2));
    let full = "bib: cannot write /dev/full: no space left on device\n";
    assert!(run.err.ends_with(full), "{}", run.err);
    bib(&["write", "-o"], b"").says(
        2,
        "bib: `-o` wants a file behind it; `bib --help` shows what can be asked\n",
    );
}

/// It is written as the Rust writes it, and said what that does to a reader.
#[test]
fn write_changed() {
    let file = b"@a{k,author={Avril~J. Smith}}";
    let out = "@a{k,\nauthor = {Avril\\~J. Smith},\n}\n";
    let err = "\
1:6: warning: `author` of entry k is changed by writing: `Avril~J. Smith` becomes \
`AvrilJ\u{303}. Smith`, since `~` is written as `\\~` (changed)
1 entry written, 1 changed in 1 field, 0 left out
";
    writes(file, 0, out, err);
    writes_by(&["write", "--strict"], file, 1, out, err);
    let becomes = |value: &str| {
        let run = bib(&["write"], format!("@a{{k, t = {value}}}").as_bytes());
        let line = run.err.lines().next().unwrap_or_default().to_string();
        let (_, why) = line.split_once("by writing: ").unwrap_or_default();
        why.strip_suffix(" (changed)").unwrap_or(why).to_string()
    };
    assert_eq!(
        becomes("{x\\^{}2}"),
        "`x^2` becomes `x2\u{302}`, since `^` is written as `\\^`"
    );
    assert_eq!(
        becomes("{S.\\ Paulo}"),
        "`S.\\  Paulo` becomes `S.\\ Paulo`, since blanks that follow each other are read as one"
    );
    assert_eq!(
        becomes("{\\unskip--}"),
        "`\\unskip-- ` becomes `\\unskip– `, since hyphens that follow each other are read as a dash"
    );
    let long = "x".repeat(9_000);
    assert_eq!(
        becomes(&format!("{{{long}}} # {{{long}}}")),
        "it is refused where it is read again: a literal is longer than 16,384 bytes"
    );
}

/// Many fields are read back at once, wherever they stand, and each that is changed is named.
#[test]
fn write_many_changed() {
    let mut file = String::new();
    for n in 0..30_000 {
        let tilde = if n % 1_000 == 7 { "~" } else { "" };
        file += &format!("@a{{k{n}, t = {{a {tilde}b}}, u = {{c{tilde}d}}}}\n");
    }
    let run = bib(&["write"], file.as_bytes());
    assert_eq!(run.status, Some(0));
    for n in (7..30_000).step_by(1_000) {
        for name in ["t", "u"] {
            let name = format!("`{name}` of entry k{n} is changed");
            assert_eq!(run.err.matches(&name).count(), 1, "{name}");
        }
    }
    let last = "<stdin>: 30000 entries written, 30 changed in 60 fields, 0 left out";
    assert_eq!(run.err.lines().last(), Some(last));
    assert_eq!(run.err.lines().count(), 61);
}

/// What stands outside every entry is lost, and said.
#[test]
fn lost_outside() {
    let file = b"@book{r,\n title={C}},\n author={Dennis Ritchie},\n year=1978\n}\nbook{s, t = {x}}\nbook{u,\n}";
    let field = "\
3:2: warning: the field `author` is outside every entry, and lost; so is `year` (field-outside)
 author={Dennis Ritchie},
 ^
  hint: the entry before it may have been closed too early
";
    let entries = "\
6:1: warning: `book{s,` without an \"@\": the entry is lost (entry-outside)
book{s, t = {x}}
^
7:1: warning: `book{u,` without an \"@\": the entry is lost (entry-outside)
book{u,
^
";
    let last = "1 entry written, 0 changed, 0 left out\n";
    let out = "@book{r,\ntitle = {C},\n}\n";
    writes(file, 0, out, &format!("{field}{entries}{last}"));
    let strict = ["write", "--strict"];
    writes_by(&strict, file, 1, out, &format!("{field}{entries}{last}"));
    let shown = "book r\n  title  C\n";
    writes_by(&["show"], file, 0, shown, &format!("{field}{entries}"));
    writes_by(
        &["show", "--strict"],
        file,
        1,
        shown,
        &format!("{field}{entries}"),
    );
    // Of what is asked for.
    writes_by(&["show", "-", "r"], file, 0, shown, field);
    let lost = entries.lines().take(3).map(|line| format!("{line}\n"));
    writes_by(&["show", "-", "s"], file, 0, "", &lost.collect::<String>());
    let check = bib(&["check"], file);
    let summary = "0 entries sound, 1 with warnings, 0 errors, 3 warnings";
    assert_eq!(check.text().lines().last(), Some(summary));
}

/// A field that is there twice is written twice, and read once.
#[test]
fn lost_twice() {
    let file = b"@a{k, y = 1, y = 2}";
    let field = "\
1:14: warning: the entry has the field `y` already, at 1:7 (duplicate-field)
@a{k, y = 1, y = 2}
             ^
";
    let last = "1 entry written, 0 changed, 0 left out\n";
    let out = "@a{k,\ny = {1},\ny = {2},\n}\n";
    writes(file, 0, out, &format!("{field}{last}"));
    writes_by(&["show"], file, 0, "a k\n  y  1\n  y  2\n", field);
    // Of many the first hundred, and then their number.
    let many = format!("@a{{k, {}}}", "y = 1, ".repeat(202));
    let run = bib(&["show"], many.as_bytes());
    assert_eq!(run.err.matches("already").count(), 100);
    let more =
        "<stdin>: warning: and 101 more; `bib check --all` shows every one (duplicate-field)\n";
    assert!(run.err.ends_with(more), "{}", run.err);
}

/// A formula is written as it stands: one whose braces match no others would take in the next entry.
#[test]
fn write_formulas() {
    let file = b"@a{k, t = {x}, u = \"$}$\"}\n@b{l, u = {$x^{2}$}}";
    let err = "\
1:16: error: `u` of entry k cannot be written: the braces of its formulas do not match
1 entry written, 0 changed, 1 left out: k (line 1)
";
    writes(file, 1, "@b{l,\nu = {$x^{2}$},\n}\n", err);
}

/// Every entry of a damaged piece is named, in whatever way it is damaged.
#[test]
fn every_damaged_entry() {
    let latin = b"@a{k, t = {G\xfcnther}}\n@b{l, t = {M\xfcller}}\n@c{M\xfcller, t = {x}}\n@d{n,}";
    let run = bib(&["show", "-", "l"], latin);
    let line = "<stdin>:2:13: error: bytes that are not UTF-8, in entry l (2)";
    assert_eq!(
        (run.status, run.text().lines().next()),
        (Some(1), Some(line))
    );
    assert_eq!(run.err, "");
    let key = std::os::unix::ffi::OsStrExt::from_bytes(b"M\xfcller");
    let words: [&std::ffi::OsStr; 3] = ["show".as_ref(), "-".as_ref(), key];
    let run = bib(&words, latin);
    let line = "<stdin>:3:5: error: bytes that are not UTF-8, in entry M\u{fffd}ller (2)";
    assert_eq!(
        (run.status, run.text().lines().next()),
        (Some(1), Some(line))
    );
    let run = bib(&["write"], latin);
    let last = "<stdin>: 1 entry written, 0 changed, 3 left out: k (line 1), l (line 2), M\u{fffd}ller (line 3)";
    assert_eq!(run.err.lines().last(), Some(last));
    let indented = b" @a{k,\n  t = 1\n\n @b{l,\n  t = 2\n }\n @c{m,}\n";
    let run = bib(&["check", "--json"], indented);
    for key in ["k", "l", "m"] {
        assert!(
            run.text().contains(&format!("\"key\":\"{key}\"}}")),
            "{key}"
        );
    }
    bib(&["show", "-", "m"], indented).is(
        1,
        "\
<stdin>:7:2: error: entry m is lost with the damage at 4:2: expected a comma (7)
 @c{m,}
 ^
",
    );
    let run = bib(&["write"], indented);
    let last =
        "<stdin>: 0 entries written, 0 changed, 3 left out: k (line 4), l (line 4), m (line 7)";
    assert_eq!(run.err.lines().last(), Some(last));
    // However long its key is.
    let key = "k".repeat(1_000);
    let run = bib(
        &["show", "-", &key],
        format!("@a{{{key}, t = }}").as_bytes(),
    );
    assert_eq!((run.status, run.err.as_str()), (Some(1), ""));
}

#[test]
fn too_long() {
    let file = vec![b' '; 16_777_216];
    let finding = "\
<stdin>:1:1: error: the file is longer than 16,777,215 bytes (1)
  hint: split it into several files
";
    bib(&["show"], &file).is(1, finding);
    let last = "<stdin>: 0 entries written, 0 changed, 0 left out\n";
    bib(&["write"], &file).says(1, &format!("{finding}{last}"));
}

#[test]
fn closed_pipe() {
    for (work, first) in [("show", "a k"), ("write", "@a{k,")] {
        let yes = "yes '@a{k,t={x}}' | head -n 200000";
        let line = format!("{yes} | $BIB {work} | head -n 1; echo ${{PIPESTATUS[2]}}");
        shell(&line).is(0, &format!("{first}\n141\n"));
    }
}
