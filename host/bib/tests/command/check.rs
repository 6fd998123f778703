//! `bib check`: what is wrong, for people.

use std::ffi::OsStr;
use std::os::unix::ffi::OsStrExt;

use crate::run::{bib, Folder, Run, Scratch};

/// What is said of a file on standard input.
fn check(file: &[u8]) -> Run {
    bib(&["check"], file)
}

#[test]
fn sound_files() {
    check(b"").is(0, "0 entries sound, 0 errors, 0 warnings\n");
    check(b"@a{k,}").is(0, "1 entry sound, 0 errors, 0 warnings\n");
    let several = b"@a{k,}\n\n@string{x = 1}\n@b{l,}";
    check(several).is(0, "2 entries sound, 0 errors, 0 warnings\n");
}

/// All damaged pieces are found, and the sound entries between them counted.
#[test]
fn every_damaged_piece() {
    let file = b"@a{k}\n@b{k,}\n@c{k, t = }\n@d{l,}\n@e{k, y = 1.2.3}\n@f{m,}\n";
    check(file).is(
        1,
        "\
<stdin>:1:5: error: expected a comma, in entry k (7)
@a{k}
    ^
  hint: BibTeX takes an entry without fields so, but this reader wants a comma: write `{k,}`
<stdin>:3:11: error: expected a value, in entry k (3)
@c{k, t = }
          ^
  hint: the field `t` has no value: write `t = {}`, or take it out
<stdin>:5:14: error: unexpected decimal point, in entry k (10)
@e{k, y = 1.2.3}
             ^
  hint: a value that is not one number or one name stands in braces: write {1.2.3}
3 entries sound, 3 damaged, 3 errors, 0 warnings
",
    );
}

/// What is open is shown, and not where the next piece begins.
#[test]
fn what_is_not_closed() {
    let file = b"@a{k,\n  t = {x}\n  u = {y}\n}\n@b{k, t = {x\n\n@c{k,}";
    check(file).is(
        1,
        "\
<stdin>:2:10: error: expected a comma, in entry k (line 1) (7)
  t = {x}
         ^
  hint: a comma is missing behind the value of `t`
<stdin>:5:11: error: entry k (line 5) is not closed (3)
@b{k, t = {x
          ^
  hint: the brace opened at 5:11 may lack its `}`
1 entry sound, 2 damaged, 2 errors, 0 warnings
",
    );
}

/// Warnings leave the exit status as it is, unless something else is asked for.
#[test]
fn levels() {
    let file = b"@a{k, y = 1, y = 2}\n@a{k,}";
    let field = "\
<stdin>:1:14: warning: the entry has the field `y` already, at 1:7 (duplicate-field)
@a{k, y = 1, y = 2}
             ^
";
    let key = "\
<stdin>:2:4: warning: the key k is that of another entry, at 1:4 (duplicate-key)
@a{k,}
   ^
";
    let both = format!("{field}{key}0 entries sound, 2 with warnings, 0 errors, 2 warnings\n");
    check(file).is(0, &both);
    bib(&["check", "--strict"], file).is(1, &both);
    let one = format!("{key}1 entry sound, 1 with warnings, 0 errors, 1 warning\n");
    bib(&["check", "--allow", "duplicate-field"], file).is(0, &one);
    bib(&["check", "--strict", "--allow=duplicate-field"], file).is(1, &one);
    let none = "2 entries sound, 0 errors, 0 warnings\n";
    bib(
        &[
            "check",
            "--strict",
            "--allow",
            "duplicate-field,duplicate-key",
        ],
        file,
    )
    .is(0, none);
    let error = field.replace("warning", "error");
    let denied = format!("{error}{key}0 entries sound, 2 with warnings, 1 error, 1 warning\n");
    bib(&["check", "--deny", "duplicate-field"], file).is(1, &denied);
}

/// A file that strict reading takes has no errors, though salvage would cut it.
#[test]
fn strict_reading_decides() {
    check(b"@a{k, t = {x\n@home}}").is(
        0,
        "\
<stdin>:2:1: warning: an \"@\" begins a line inside an entry: salvage would cut there (cut-inside)
@home}}
^
  hint: put a blank before it, so that damage elsewhere in the file does not reach it
0 entries sound, 1 with warnings, 0 errors, 1 warning
",
    );
}

#[test]
fn list_of_lints() {
    let run = bib(&["check", "--list"], b"");
    run.is(0, run.text());
    for name in ["field-outside", "duplicate-key", "late-close", "cut-inside"] {
        assert!(run.text().contains(&format!("{name}\n  ")), "{name}");
    }
    for number in 1..=16 {
        assert!(run.text().contains(&format!("\n{number}: ")), "{number}");
    }
    assert!(!run.text().contains('\x1b'));
}

#[test]
fn json() {
    let file = b"@a{k, t = }\n@b{l, y = 1, y = 2}";
    bib(&["check", "--json"], file).is(
        1,
        "\
{\"file\":\"<stdin>\",\"line\":1,\"column\":11,\"start\":10,\"end\":11,\"number\":3,\"name\":\"unexpected-end\",\"level\":\"error\",\
\"message\":\"expected a value, in entry k\",\
\"hint\":\"the field `t` has no value: write `t = {}`, or take it out\",\"key\":\"k\"}
{\"file\":\"<stdin>\",\"line\":2,\"column\":14,\"start\":25,\"end\":26,\"number\":null,\"name\":\"duplicate-field\",\
\"level\":\"warning\",\"message\":\"the entry has the field `y` already, at 2:7\",\"hint\":null,\"key\":\"l\"}
",
    );
    bib(&["check", "--json"], b"@a{k,}").is(0, "");
}

/// What resolving refuses in what is sound is an error too, unless it is left out.
#[test]
fn what_cannot_be_resolved() {
    let file = b"@a{k, t = {5$ off}}\n@b{l, t = }\n@string{x = y}\n";
    let damage = "\
<stdin>:2:11: error: expected a value, in entry l (3)
@b{l, t = }
          ^
  hint: the field `t` has no value: write `t = {}`, or take it out
";
    let all = format!(
        "\
<stdin>:1:13: error: the text ends too early, in entry k (3)
@a{{k, t = {{5$ off}}}}
            ^
  hint: the `$` at 1:13 begins a formula that does not end: write \\$ where a dollar is meant
{damage}\
<stdin>:3:13: error: a name without a definition: `y`, in @string (12)
@string{{x = y}}
            ^
  hint: put a text into braces: {{y}}; or define the name in this file: @string{{y = {{..}}}}
0 entries sound, 1 with unresolved fields, 1 damaged, 3 errors, 0 warnings
"
    );
    check(file).is(1, &all);
    let summary = "1 entry sound, 1 damaged, 1 error, 0 warnings\n";
    bib(&["check", "--no-resolve"], file).is(1, &format!("{damage}{summary}"));
    bib(&["check", "--no-resolve"], b"@a{k, t = x}").is(0, "1 entry sound, 0 errors, 0 warnings\n");
    bib(&["check", "--json"], b"@a{k, t = x}").is(
        1,
        "\
{\"file\":\"<stdin>\",\"line\":1,\"column\":11,\"start\":10,\"end\":11,\"number\":12,\"name\":\"unknown-name\",\"level\":\"error\",\
\"message\":\"a name without a definition: `x`, in entry k\",\
\"hint\":\"put a text into braces: {x}; or define the name in this file: @string{x = {..}}\",\"key\":\"k\"}
",
    );
}

#[test]
fn quiet() {
    bib(&["check", "--quiet"], b"@a{k}").is(1, "");
    bib(&["check", "-q"], b"@a{k,}").is(0, "");
    bib(&["check", "-q", "no/such.bib"], b"").says(
        2,
        "bib: cannot read no/such.bib: no such file or directory\n",
    );
}

/// Each refusal that a piece can have, with its number.
#[test]
fn every_number() {
    let cases: [(&[u8], &str); 10] = [
        (b"\xff", "1: error: bytes that are not UTF-8 (2)"),
        (b"@a{k,", "1: error: entry k (line 1) is not closed (3)"),
        (b"@a{k,t=}", "8: error: expected a value, in entry k (3)"),
        (b"@{", "2: error: expected an identifier (4)"),
        (b"@a", "3: error: expected an opening brace (5)"),
        (
            b"@comment{",
            "1: error: @comment (line 1) is not closed (6)",
        ),
        (b"@a{k}", "5: error: expected a comma, in entry k (7)"),
        (
            b"@preamble{x}",
            "11: error: expected a quotation mark, in @preamble (8)",
        ),
        (
            b"@a{k,t}",
            "7: error: expected an equals sign, in entry k (9)",
        ),
        (
            b"@a{k,t=1..}",
            "10: error: unexpected decimal point, in entry k (10)",
        ),
    ];
    for (file, what) in cases {
        let run = check(file);
        assert_eq!(run.status, Some(1));
        assert_eq!(
            run.text().lines().next(),
            Some(&*format!("<stdin>:1:{what}"))
        );
    }
}

/// The lines of a finding: its place and words, the source line, the mark.
#[track_caller]
fn shows(file: &[u8], lines: [&str; 3]) {
    let run = check(file);
    assert_eq!(run.status, Some(1));
    let seen: Vec<&str> = run.text().lines().take(3).collect();
    assert_eq!(seen, lines);
}

/// Columns are characters; the mark stands under the place though tabs, wide characters and marks
/// on others come before. A byte order mark is not counted.
#[test]
fn columns() {
    let place = "<stdin>:1:7: error: expected a comma, in entry 漢字 (7)";
    let line = "@a{漢字\té\u{301}e\u{301} =1}";
    shows(
        line.replace('=', "~").as_bytes(),
        [place, &line.replace('=', "~"), "       \t^"],
    );
    let place = "<stdin>:1:12: error: expected a value, in entry k (3)";
    let line = "@a{k, 漢e\u{301} =}";
    shows(line.as_bytes(), [place, line, "           ^"]);
    let place = "<stdin>:1:5: error: expected a comma, in entry k (7)";
    shows(b"\xef\xbb\xbf@a{k}", [place, "@a{k}", "    ^"]);
}

/// Each column of the character at which reading stops has a mark: wide characters have two, and one that
/// stands on another has those of that.
#[test]
fn whole_characters() {
    let place = "<stdin>:1:6: error: expected a comma, in entry k (7)";
    for (line, marks) in [
        ("@a{k é,}", "     ^"),
        ("@a{k 漢,}", "     ^^"),
        ("@a{k 漢\u{301},}", "     ^^"),
        ("@a{k \u{301},}", "    ^"),
        ("@a{k 😀,}", "     ^^"),
    ] {
        shows(line.as_bytes(), [place, line, marks]);
    }
    let place = "<stdin>:1:9: error: expected a comma, in entry k (7)";
    let line = "@a{k,t=1\u{301}}";
    shows(line.as_bytes(), [place, line, "       ^"]);
}

/// A tab has marks up to the next stop, and the end of a line or of the file has one.
#[test]
fn tabs_and_ends() {
    let place = "<stdin>:1:2: error: expected an identifier (4)";
    shows(b"@\ta{k,}", [place, "@\ta{k,}", " ^^^^^^^"]);
    for file in ["@\n", "@\r\n", "@\r", "@", "@\n@b{k,}"] {
        shows(file.as_bytes(), [place, "@", " ^"]);
    }
    let place = "<stdin>:2:2: error: expected an identifier (4)";
    shows("漢\n@".as_bytes(), [place, "@", " ^"]);
}

/// Where the mark is elsewhere than the refusal, the character there is underlined: the blank before which a
/// comma is missing, or the brace that is not closed. The bytes are the refusal's all the same.
#[test]
fn marks_elsewhere() {
    let file = "@a{k,\n t = {x}\u{3000}\n é = {y}}";
    let place = "<stdin>:2:9: error: expected a comma, in entry k (line 1) (7)";
    shows(file.as_bytes(), [place, " t = {x}\u{3000}", "        ^^"]);
    let bytes = |file: &str| {
        let run = bib(&["check", "--json"], file.as_bytes());
        let (_, rest) = run.text().split_once("\"start\":").expect("a start");
        let (bytes, _) = rest.split_once(",\"number\"").expect("a number");
        bytes.to_string()
    };
    assert_eq!(bytes(file), "19,\"end\":21");
    let file = "@a{k, t = {漢\n";
    let place = "<stdin>:1:11: error: entry k (line 1) is not closed (3)";
    shows(file.as_bytes(), [place, "@a{k, t = {漢", "          ^"]);
    assert_eq!(bytes(file), "15,\"end\":15");
}

/// Lines may end in CR alone.
#[test]
fn lines_of_old_machines() {
    let place = "<stdin>:2:4: error: expected a value, in entry k (line 1) (3)";
    shows(b"@a{k,\rt =,\r}\r", [place, "t =,", "   ^"]);
}

/// Neither the line's end nor what steers a terminal is printed.
#[test]
fn characters_that_are_not_shown() {
    let place = "<stdin>:1:5: error: expected a comma, in entry k (7)";
    shows(b"@a{k\x1b[2J}\r\n", [place, "@a{k\u{241b}[2J}", "    ^"]);
    let place = "<stdin>:1:9: error: bytes that are not UTF-8, in entry k (2)";
    let line = "@a{k, \u{fffd}}\u{fffd}\u{fffd} \u{fffd}";
    shows(
        b"@a{k, \xe2\x80\xae}\xe2\x82 \xff",
        [place, line, "        ^"],
    );
    let place = "<stdin>:1:7: error: expected a comma, in entry \u{fffd}\u{fffd}\u{fffd} (7)";
    let line = "@a{\u{200e}\u{200f}\u{61c}}";
    shows(
        line.as_bytes(),
        [place, "@a{\u{fffd}\u{fffd}\u{fffd}}", "      ^"],
    );
}

/// Of a long line what is around the place is shown, and no more than a terminal's line.
#[test]
fn long_lines() {
    let file = format!("@a{{k, t = {{{}}} {{{}", "x".repeat(100), "y".repeat(100));
    let shown = format!("…{}}} {{{}…", "x".repeat(46), "y".repeat(28));
    let place = "<stdin>:1:114: error: expected a comma, in entry k (7)";
    shows(
        file.as_bytes(),
        [place, &shown, &format!("{}^", " ".repeat(49))],
    );
    let run = check(format!("@a{{k {}", "é".repeat(2_000_000)).as_bytes());
    assert_eq!(run.status, Some(1));
    assert!(run.out.len() < 800, "{} bytes", run.out.len());
}

#[test]
fn several_files() {
    let sound = Scratch::new("sound.bib", b"@a{k,}\n@b{l,}");
    let broken = Scratch::new("broken.bib", b"@a{m,}\n@b{n, t =}");
    let finding = format!(
        "\
{}:2:10: error: expected a value, in entry n (3)
@b{{n, t =}}
         ^
  hint: the field `t` has no value: write `t = {{}}`, or take it out
",
        broken.name()
    );
    bib(&["check", sound.name()], b"").is(0, "2 entries sound, 0 errors, 0 warnings\n");
    let summary = "3 entries sound, 1 damaged, 1 error, 0 warnings; findings in 1 of 2 files\n";
    let both = ["check", broken.name(), sound.name()];
    bib(&both, b"").is(1, &format!("{finding}{summary}"));
    let run = bib(&["check", broken.name(), "no/such.bib", "-"], b"@a{o,}");
    let summary =
        "2 entries sound, 1 damaged, 1 error, 0 warnings; findings in 1 of 2 files; 1 file not read\n";
    let want = Run {
        status: Some(2),
        out: format!("{finding}{summary}").into_bytes(),
        err: "bib: cannot read no/such.bib: no such file or directory\n".into(),
    };
    assert_eq!(run, want);
}

/// A key of another file is said with its place; one of the same file is said as such.
#[test]
fn keys_of_several_files() {
    let one = Scratch::new("keys-one.bib", b"@a{k,}\n@a{l,}");
    let two = Scratch::new("keys-two.bib", b"@b{m,}\n@b{k,}");
    let words = ["check", one.name(), two.name()];
    let warning = format!(
        "{}:2:4: warning: the key k is in {}:1:4 too (key-in-two-files)\n",
        two.name(),
        one.name()
    );
    let summary =
        "3 entries sound, 1 with warnings, 0 errors, 1 warning; findings in 1 of 2 files\n";
    bib(&words, b"").is(0, &format!("{warning}{summary}"));
    let summary = "4 entries sound, 0 errors, 0 warnings; findings in 0 of 2 files\n";
    bib(
        &[&words[..], &["--allow", "key-in-two-files"]].concat(),
        b"",
    )
    .is(0, summary);
    bib(
        &[&words[..], &["--deny", "key-in-two-files", "-q"]].concat(),
        b"",
    )
    .is(1, "");
}

/// All .bib files below a folder, in the order of their names.
#[test]
fn folders() {
    let folder = Folder::new("folder");
    for (name, file) in [
        ("b.bib", "@a{k}"),
        ("a/c.BIB", "@a{l}"),
        ("a/d.txt", "@a{m}"),
    ] {
        folder.add(name, file.as_bytes());
    }
    let run = bib(&["check", folder.name(), "--json"], b"");
    let files: Vec<&str> = run
        .text()
        .lines()
        .filter_map(|line| line.split('"').nth(3))
        .collect();
    let want = ["a/c.BIB", "b.bib"].map(|name| format!("{}/{name}", folder.name()));
    assert_eq!(
        (run.status, files),
        (Some(1), want.iter().map(String::as_str).collect())
    );
    let empty = Folder::new("empty");
    let sentence = format!("bib: there are no .bib files below {}\n", empty.name());
    bib(&["check", empty.name()], b"").says(2, &sentence);
}

/// Many files on all cores, in their order.
#[test]
fn many_files() {
    let folder = Folder::new("many");
    let mut want = String::new();
    for n in 100..400 {
        // Some take longer than others, and some say more than is kept.
        let blanks = " ".repeat(if n % 7 == 0 { 300_000 } else { 1 });
        let lines = if n % 50 == 0 { 2_000 } else { 1 };
        folder.add(
            &format!("{n}.bib"),
            format!("{blanks}\n{}", "@a\n".repeat(lines)).as_bytes(),
        );
        for line in 0..lines {
            want += &format!("{}/{n}.bib:{}\n", folder.name(), line + 2);
        }
    }
    let run = bib(&["check", folder.name(), "--json"], b"");
    let place = |line: &str| {
        let parts: Vec<&str> = line.split(&['"', ':', ','][..]).collect();
        format!("{}:{}\n", parts[4], parts[9])
    };
    let seen: String = run.text().lines().map(place).collect();
    assert_eq!(run.status, Some(1));
    assert!(
        seen == want,
        "the order of {} lines",
        run.text().lines().count()
    );
}

#[test]
fn file_that_is_too_long() {
    check(&vec![b' '; 16_777_216]).is(
        1,
        "\
<stdin>:1:1: error: the file is longer than 16,777,215 bytes (1)
  hint: split it into several files
0 entries sound, 1 error, 0 warnings
",
    );
}

/// A name is shown so that it steers no terminal, and can be found again.
#[test]
fn names_of_files() {
    let file = Scratch::new(OsStr::from_bytes(b"odd\xff\x1b[2J.bib"), b"@a{k, t = }");
    let run = bib(&[OsStr::new("check"), file.0.as_os_str()], b"");
    assert!(
        run.text().contains("/odd\\xff\\u{1b}[2J.bib:1:11: "),
        "{:?}",
        run.text()
    );
    assert_eq!((run.status, run.err.as_str()), (Some(1), ""));
    // In JSON its bytes are there too, where it is not UTF-8.
    let json = bib(
        &[
            OsStr::new("check"),
            OsStr::new("--json"),
            file.0.as_os_str(),
        ],
        b"",
    );
    let hex = "6f6464ff1b5b324a2e626962\",\"line\":1,";
    assert!(json.text().contains(hex), "{}", json.text());
    let run = bib(&["check", "no\x1bsuch"], b"");
    run.says(
        2,
        "bib: cannot read no\\u{1b}such: no such file or directory\n",
    );
}

/// An entry is counted though its brace is missing, or another bracket stands for it.
#[test]
fn entries_without_a_brace() {
    for file in [
        "@article a14\n  title = {T}\n}\n",
        "@article[a14, title = {T}]\n",
    ] {
        let run = bib(&["check"], file.as_bytes());
        let text = run.text();
        let hint = "  hint: a brace is missing behind the type: write `@article{a14,`\n";
        assert!(text.contains(hint), "{text}");
        let last = "\n0 entries sound, 1 damaged, 1 error, 0 warnings\n";
        assert!(text.ends_with(last), "{text}");
        let run = bib(&["write"], file.as_bytes());
        let last = "<stdin>: 0 entries written, 0 changed, 1 left out: a14 (line 1)\n";
        assert!(run.err.ends_with(last), "{}", run.err);
    }
}
