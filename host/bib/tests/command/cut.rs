//! Of many warnings of one name the first hundred of a file are shown.

use crate::run::{bib, Run, Scratch};

/// An entry whose field is there so many times too often.
fn repeated(times: usize) -> Vec<u8> {
    format!("@a{{k,\n{}}}", "a = 1,\n".repeat(times + 1)).into_bytes()
}

/// How many lines of a run have this in them.
fn lines(run: &Run, what: &str) -> usize {
    run.text()
        .lines()
        .filter(|line| line.contains(what))
        .count()
}

/// What is printed behind the last finding.
fn end(run: &Run) -> String {
    let lines: Vec<&str> = run.text().lines().collect();
    let shown = lines.iter().rposition(|line| line.contains('^'));
    lines[shown.map_or(0, |last| last + 1)..].join("\n")
}

#[test]
fn hundred_are_shown() {
    let run = bib(&["check"], &repeated(100));
    assert_eq!(lines(&run, "already"), 100);
    assert_eq!(
        end(&run),
        "0 entries sound, 1 with warnings, 0 errors, 100 warnings"
    );
    let run = bib(&["check"], &repeated(101));
    assert_eq!((run.status, lines(&run, "already")), (Some(0), 100));
    let more = "<stdin>: warning: and 1 more; --all shows every one (duplicate-field)\n";
    let summary = "0 entries sound, 1 with warnings, 0 errors, 101 warnings";
    assert_eq!(end(&run), format!("{more}{summary}"));
}

/// Whoever asks for all gets all, and so does a script.
#[test]
fn every_one() {
    let run = bib(&["check", "--all"], &repeated(250));
    assert_eq!(lines(&run, "already"), 250);
    assert_eq!(
        end(&run),
        "0 entries sound, 1 with warnings, 0 errors, 250 warnings"
    );
    let run = bib(&["check", "--json"], &repeated(250));
    assert_eq!((lines(&run, "already"), lines(&run, "")), (250, 250));
    bib(&["check", "--quiet", "--strict"], &repeated(250)).is(1, "");
}

/// Errors are not cut: neither what is refused nor a warning that was made one.
#[test]
fn errors_are_shown() {
    let run = bib(&["check"], &b"@a{k}\n".repeat(250));
    assert_eq!(lines(&run, "error: expected a comma"), 250);
    assert_eq!(end(&run).lines().count(), 2);
    let run = bib(&["check", "--deny", "duplicate-field"], &repeated(250));
    assert_eq!(lines(&run, "error: "), 250);
    assert_eq!(
        end(&run),
        "0 entries sound, 1 with warnings, 250 errors, 0 warnings"
    );
}

/// Each file has its hundred of each name, and what was left out stands behind it.
#[test]
fn each_file_and_each_name() {
    let entries = |from: usize, to: usize| -> String {
        let entry = |n| format!("@a{{k{n},}}\n");
        (from..to).map(entry).collect()
    };
    let one = Scratch::new("cut-one.bib", entries(0, 150).as_bytes());
    let two = [entries(0, 150).as_bytes(), &repeated(120)].concat();
    let two = Scratch::new("cut-two.bib", &two);
    let three = Scratch::new("cut-three.bib", &repeated(103));
    let run = bib(&["check", one.name(), two.name(), three.name()], b"");
    let more = |file: &Scratch, count: usize, name: &str| {
        format!(
            "{}: warning: and {count} more; --all shows every one ({name})",
            file.name()
        )
    };
    let left: Vec<&str> = run
        .text()
        .lines()
        .filter(|line| line.contains(" more; "))
        .collect();
    let want = [
        more(&two, 50, "key-in-two-files"),
        more(&two, 20, "duplicate-field"),
        more(&three, 3, "duplicate-field"),
    ];
    assert_eq!(left, want);
    assert_eq!(lines(&run, "(key-in-two-files)"), 102);
    assert_eq!(lines(&run, "(duplicate-field)"), 202);
    let summary =
        "150 entries sound, 152 with warnings, 0 errors, 374 warnings; findings in 2 of 3 files";
    assert_eq!(run.text().lines().last(), Some(summary));
}
