//! Keys that fields name, in one file and in several.

use crate::run::{bib, Scratch};

/// In one file the line is shown; an entry of another file may have the key.
#[test]
fn keys_of_other_files() {
    let one = Scratch::new(
        "crossref-one.bib",
        b"@a{k, crossref = {L}, xdata = {m, n}}\n@a{p, xref = {q}}",
    );
    let two = Scratch::new("crossref-two.bib", b"@a{l, ids = {q}}\n@a{m, t = }");
    let name = one.name();
    let line = |place: &str, key: &str, field: &str| {
        format!("{name}:{place}: warning: no entry has the key {key}, which `{field}` names (unknown-crossref)\n")
    };
    let run = bib(&["check", name], b"");
    let want = [
        line("1:19", "L", "crossref"),
        line("1:32", "m", "xdata"),
        line("1:35", "n", "xdata"),
        line("2:15", "q", "xref"),
    ];
    let lines: Vec<String> = run
        .text()
        .lines()
        .filter(|line| line.contains(": warning: "))
        .map(|line| format!("{line}\n"))
        .collect();
    assert_eq!((run.status, lines.as_slice()), (Some(0), &want[..]));
    assert!(run
        .text()
        .ends_with("\n0 entries sound, 2 with warnings, 0 errors, 4 warnings\n"));
    // One of the keys is in another letter, one is another name of an entry, and one is damaged.
    let words = ["check", name, two.name()];
    let run = bib(&words, b"");
    let summary = "2 entries sound, 1 with warnings, 1 damaged, 1 error, 1 warning; findings in 2 of 2 files\n";
    assert_eq!(run.status, Some(1));
    assert!(
        run.text()
            .ends_with(&format!("{}{summary}", line("1:35", "n", "xdata"))),
        "{}",
        run.text()
    );
    for allow in [
        &["--allow", "unknown-crossref"][..],
        &[
            "--no-resolve",
            "--allow",
            "unknown-crossref,key-in-two-files",
        ],
    ] {
        let run = bib(&[&words[..], allow].concat(), b"");
        let summary = "3 entries sound, 1 damaged, 1 error, 0 warnings; findings in 1 of 2 files\n";
        assert!(run.text().ends_with(summary), "{}", run.text());
    }
    let run = bib(&[&words[..], &["--json"]].concat(), b"");
    let last = run.text().lines().last().unwrap_or_default();
    assert!(
        last.contains("\"unknown-crossref\"") && last.contains("\"key\":\"k\""),
        "{last}"
    );
}

/// An entry is counted once, whatever is said of it; and errors make the exit status 1.
#[test]
fn counted_once() {
    let one = Scratch::new("crossref-three.bib", b"@a{k, t = {x}}");
    let two = Scratch::new(
        "crossref-four.bib",
        b"@a{k, crossref = {z}}\n@a{l, xdata = {y, z}}",
    );
    let words = ["check", one.name(), two.name()];
    let run = bib(&words, b"");
    let summary =
        "1 entry sound, 2 with warnings, 0 errors, 4 warnings; findings in 1 of 2 files\n";
    assert_eq!(run.status, Some(0));
    assert!(run.text().ends_with(summary), "{}", run.text());
    bib(
        &[&words[..], &["-q", "--deny", "unknown-crossref"]].concat(),
        b"",
    )
    .is(1, "");
    bib(&[&words[..], &["-q", "--strict"]].concat(), b"").is(1, "");
}

/// Of one file the first hundred are shown.
#[test]
fn hundred_are_shown() {
    let keys: Vec<String> = (0..150).map(|n| format!("z{n}")).collect();
    let file = format!("@a{{k, xdata = {{{}}}}}", keys.join(","));
    let one = Scratch::new("crossref-many.bib", file.as_bytes());
    let two = Scratch::new("crossref-none.bib", b"@a{l, t = {x}}");
    for words in [
        &["check", one.name()][..],
        &["check", one.name(), two.name()],
    ] {
        let run = bib(words, b"");
        assert_eq!(run.text().matches("no entry has the key").count(), 100);
        let more = format!(
            "{}: warning: and 50 more; --all shows every one (unknown-crossref)\n",
            one.name()
        );
        assert!(run.text().contains(&more), "{}", run.text());
    }
}
