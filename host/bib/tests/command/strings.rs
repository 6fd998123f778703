//! `--strings`: definitions that other files lend.

use std::ffi::OsStr;
use std::os::unix::ffi::OsStrExt;

use crate::run::{bib, Scratch};

const STRINGS: &[u8] = b"@string{acm = {ACM Press}}\n@string{jacm = {J. } # acm}\n";
const REFS: &[u8] = b"@book{k,\n  publisher = acm,\n  journal = {The } # jacm,\n}\n";

/// Without it, the other file is named.
#[test]
fn where_a_name_is_defined() {
    let strings = Scratch::new("where strings.bib", STRINGS);
    let refs = Scratch::new("where-refs.bib", b"@book{k, t = acm, u = none}\n");
    let (strings, refs) = (strings.name(), refs.name());
    for words in [["check", strings, refs], ["check", refs, strings]] {
        bib(&words, b"").is(
            1,
            &format!(
                "\
{refs}:1:14: error: a name without a definition: `acm`, in entry k (12)
@book{{k, t = acm, u = none}}
             ^
  hint: defined in {strings}, line 1: lend it with --strings '{strings}'
{refs}:1:23: error: a name without a definition: `none`, in entry k (12)
@book{{k, t = acm, u = none}}
                      ^
  hint: put a text into braces: {{none}}; or define the name in this file: @string{{none = {{..}}}}
0 entries sound, 1 with unresolved fields, 2 errors, 0 warnings; findings in 1 of 2 files
"
            ),
        );
    }
    let run = bib(&["check", "--json", refs, strings], b"");
    let hint =
        format!("\"hint\":\"defined in {strings}, line 1: lend it with --strings '{strings}'\"");
    assert!(run.text().contains(&hint), "{}", run.text());
}

#[test]
fn every_work() {
    let strings = Scratch::new("every-strings.bib", STRINGS);
    let lent = ["--strings", strings.name()];
    let run = |work: &str| bib(&[work, lent[0], lent[1]], REFS);
    run("check").is(0, "1 entry sound, 0 errors, 0 warnings\n");
    run("show").is(
        0,
        "book k\n  publisher  ACM Press\n  journal    The J. ACM Press\n",
    );
    let written = run("write");
    assert_eq!(
        (written.status, written.text(), written.err.as_str()),
        (
            Some(0),
            "@book{k,\npublisher = {ACM Press},\njournal = {The J. ACM Press},\n}\n",
            "<stdin>: 1 entry written, 0 changed, 0 left out\n"
        )
    );
    let resolved = "\
entry x6b 0 55
field x7075626c6973686572 23 26
names 1
chunk 0 x41434d205072657373 1:15 1:24
verbatim x41434d205072657373
sentence x41636d207072657373
bib0 x7b41434d2050726573737d
bib1 x7b41434d2050726573737d
field x6a6f75726e616c 40 53
names 2
chunk 0 x546865204a2e2041434d205072657373 41 1:24
verbatim x546865204a2e2041434d205072657373
sentence x546865206a2e2061636d207072657373
bib0 x7b546865204a2e2041434d2050726573737d
bib1 x7b546865204a2e2041434d2050726573737d
";
    run("resolve").is(0, resolved);
    let behind = format!("--strings={}", strings.name());
    bib(&["resolve", &behind], REFS).is(0, resolved);
}

/// The last definition counts: that of the file, and else that of the last file.
#[test]
fn which_definition() {
    let one = Scratch::new("which-one.bib", b"@string{a = {1}, b = {1}, c = {1}}");
    let two = Scratch::new("which-two.bib", b"@string{b = {2}, c = {2}, d = a # c}");
    let words = ["show", "--strings", one.name(), "--strings", two.name()];
    let file = b"@x{k, a = a, b = b, c = c, d = d}@string{c = {3}}";
    bib(&words, file).is(0, "x k\n  a  1\n  b  2\n  c  3\n  d  13\n");
    // A name that is defined here and there is no duplicate.
    let words = ["check", "--strings", one.name(), "--strings", one.name()];
    bib(&words, file).is(
        1,
        "\
<stdin>:1:32: error: a name without a definition: `d`, in entry k (12)
@x{k, a = a, b = b, c = c, d = d}@string{c = {3}}
                               ^
  hint: put a text into braces: {d}; or define the name in this file: @string{d = {..}}
0 entries sound, 1 with unresolved fields, 1 error, 0 warnings
",
    );
}

/// A lent definition that is at fault is told by its place in the file that lends it.
#[test]
fn faults_of_lent_definitions() {
    let content =
        b"% x\n@string{sound = 1} @string{bad = {x $ y}}\n@string{on = nope}\n@string{(\n";
    let strings = Scratch::new("fault-strings.bib", content);
    let name = strings.name();
    let file = b"@book{k,\n  a = bad,\n  b = on,\n  c = bad # {!},\n  d = Sound,\n}";
    let say = |tail: &str| {
        format!(
            "\
{name}:2:37: error: the text ends too early, in `a` of entry k (<stdin>, line 1) (3)
@string{{sound = 1}} @string{{bad = {{x $ y}}}}
                                    ^
  hint: the `$` at 2:37 begins a formula that does not end: write \\$ where a dollar is meant
{name}:3:14: error: a name without a definition: `nope`, in `b` of entry k (<stdin>, line 1), and one more use of such a name (12)
@string{{on = nope}}
             ^
  hint: @string ({name}, line 4) is damaged, and may have defined it: mend that first
{tail}"
        )
    };
    let words = ["check", "--strings", name];
    bib(&words, file).is(
        1,
        &say("0 entries sound, 1 with unresolved fields, 2 errors, 0 warnings\n"),
    );
    let words = ["check", "--json", "--strings", name];
    let run = bib(&words, file);
    let first = format!(
        "{{\"file\":\"{name}\",\"line\":2,\"column\":37,\"start\":43,\"end\":43,\"number\":3,"
    );
    assert!(run.text().starts_with(&first), "{}", run.text());
    let words = ["resolve", "--strings", name];
    let lines = bib(&words, file);
    let refused = lines
        .text()
        .lines()
        .filter(|line| line.starts_with("refused"));
    let want = [
        "refused 3 1:43 1:43",
        "refused 12 1:59 1:63",
        "refused 3 1:43 1:43",
        "refused 12 53 58",
    ];
    assert!(refused.eq(want), "{}", lines.text());
    let words = ["show", "--strings", name];
    let other = format!("BibTeX takes it for `sound`, defined at {name}:2:9, but");
    assert!(bib(&words, file).text().contains(&other));
}

/// What is written is what would be written of the file with the definitions before it.
#[test]
fn written_as_with_the_definitions_before() {
    let root = concat!(env!("CARGO_MANIFEST_DIR"), "/../../examples");
    let lent = b"@string{mph = {Lent $x$ {\\\"U}}, acm = {A} # mph}\n@string{late = acm}\n";
    let strings = Scratch::new("before-strings.bib", lent);
    let mut count = 0;
    for entry in std::fs::read_dir(root).expect("examples/ is there") {
        let path = entry.expect("it can be listed").path();
        if path.extension() != Some(OsStr::new("bib")) {
            continue;
        }
        let mut file = std::fs::read(&path).expect("it can be read");
        file.extend_from_slice(b"\n@book{last, a = acm, b = late # {x} # mph, c = jan}\n");
        // The comment is lost where the file's first piece is damaged, and not the last definition.
        let both = [&lent[..], b"@comment{}\n", &file].concat();
        let seen = bib(&["write", "--strings", strings.name()], &file);
        assert_eq!(seen.text(), bib(&["write"], &both).text(), "{path:?}");
        let seen = bib(&["show", "--strings", strings.name()], &file);
        assert_eq!(seen.status, bib(&["show"], &both).status, "{path:?}");
        count += 1;
    }
    assert!(count >= 48, "{count} examples are too few");
}

#[test]
fn longest_together() {
    let strings = Scratch::new("long-strings.bib", b"@string{a = 1}");
    let lent = ["--strings", strings.name()];
    // The definition and a line's end are before it.
    let mut file = vec![b'\n'; 16_777_215 - 15];
    bib(&["check", "--allow", "no-entries", lent[0], lent[1]], &file)
        .is(0, "0 entries sound, 0 errors, 0 warnings\n");
    file.push(b'\n');
    let together =
        "the file and the definitions that it is lent are together longer than 16,777,215 bytes";
    let said = format!(
        "<stdin>:1:1: error: {together} (1)\n  hint: lend it fewer definitions, or split it\n"
    );
    bib(&["check", lent[0], lent[1]], &file)
        .is(1, &format!("{said}0 entries sound, 1 error, 0 warnings\n"));
    bib(&["show", lent[0], lent[1]], &file).is(1, &said);
    let run = bib(&["resolve", lent[0], lent[1]], &file);
    assert_eq!(run.err, format!("bib: <stdin>: {together}\n"));
    assert_eq!((run.status, run.text()), (Some(1), "refused 1 0 0\n"));
    // What is not resolved is lent nothing.
    let words = ["check", "--no-resolve", lent[0], lent[1]];
    bib(&words, &file).is(0, "0 entries sound, 0 errors, 0 warnings\n");
    // A file lends nothing to itself.
    file[0] = b'%';
    let content = [b"@string{a = 1}", &file[..16_777_215 - 14]].concat();
    let lender = Scratch::new("long-own.bib", &content);
    for work in ["check", "show", "write", "resolve"] {
        let run = bib(&[work, "--strings", lender.name(), lender.name()], b"");
        assert_eq!(run.status, Some(0), "{work}: {}", run.text());
    }
    file.resize(16_777_216, b'\n');
    let long = Scratch::new("long-lender.bib", &file);
    let name = long.name();
    bib(&["check", "--strings", name], b"@a{k,}").says(
        2,
        &format!("bib: {name}: the file is longer than 16,777,215 bytes\n"),
    );
}

#[test]
fn files_that_cannot_be_read_or_written() {
    for work in ["check", "show", "write", "resolve"] {
        bib(&[work, "--strings", "nowhere.bib"], b"@a{k,}").says(
            2,
            "bib: cannot read nowhere.bib: no such file or directory\n",
        );
        bib(&[work, "--strings"], b"").says(
            2,
            "bib: `--strings` wants a file behind it; `bib --help` shows what can be asked\n",
        );
    }
    let strings = Scratch::new("kept-strings.bib", STRINGS);
    let name = strings.name();
    bib(&["write", "--strings", name, "-o", name], REFS).says(
        2,
        &format!("bib: {name} is the file that is read: write another one\n"),
    );
    assert_eq!(std::fs::read(name).expect("it is there"), STRINGS);
}

/// Standard input may lend, or be read.
#[test]
fn standard_input() {
    let refs = Scratch::new("stdin-refs.bib", REFS);
    bib(&["check", "--strings", "-", refs.name()], STRINGS)
        .is(0, "1 entry sound, 0 errors, 0 warnings\n");
    let twice = "bib: standard input is read only once; `bib --help` shows what can be asked\n";
    for work in ["check", "show", "write", "resolve"] {
        bib(&[work, "--strings", "-"], STRINGS).says(2, twice);
    }
}

/// Names that are not UTF-8 are found, behind the option and behind its "=".
#[test]
fn odd_names_of_files() {
    let strings = Scratch::new(OsStr::from_bytes(b"odd\xff.bib"), STRINGS);
    let path = strings.0.as_os_str();
    let behind = [b"--strings=", path.as_bytes()].concat();
    let sound = "1 entry sound, 0 errors, 0 warnings\n";
    bib(&[OsStr::new("check"), OsStr::new("--strings"), path], REFS).is(0, sound);
    bib(&[OsStr::new("check"), OsStr::from_bytes(&behind)], REFS).is(0, sound);
}
