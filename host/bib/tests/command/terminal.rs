//! What differs on a terminal.

use crate::run::{shell, Run, Scratch};

/// Runs a line of the shell on a terminal that `script` makes; both streams come back as one.
fn on_terminal(line: &str) -> Run {
    shell(&format!("TERM=xterm script -qec {line:?} /dev/null"))
}

#[test]
fn colour() {
    let file = Scratch::new("colour.bib", b"@a{k}");
    let coloured = format!(
        "\x1b[1m{}:1:5:\x1b[0m \x1b[1;31merror:\x1b[0m expected a comma, in entry k (7)\r\n@a{{k}}\r\n    \x1b[1;31m^\x1b[0m\r\n",
        file.name()
    );
    let run = on_terminal(&format!("$BIB check {}", file.name()));
    assert!(run.text().starts_with(&coloured), "{:?}", run.text());
    for plain in ["NO_COLOR=1 $BIB", "TERM=dumb $BIB"] {
        let run = on_terminal(&format!("{plain} check {}", file.name()));
        assert!(!run.text().contains('\x1b'), "{:?}", run.text());
    }
    let run = shell(&format!("$BIB check {}", file.name()));
    assert!(!run.text().contains('\x1b'), "{:?}", run.text());
    let run = shell(&format!("$BIB check --color always {}", file.name()));
    let coloured = coloured.replace("\r\n", "\n");
    assert!(run.text().starts_with(&coloured), "{:?}", run.text());
    let run = on_terminal(&format!("$BIB check --color=never {}", file.name()));
    assert!(!run.text().contains('\x1b'), "{:?}", run.text());
}

/// Excerpts and their marks keep to the terminal's width, whatever it is.
#[test]
fn narrow_terminals() {
    let wide = "漢".repeat(100);
    for (behind, marks) in [("x", "^"), ("字", "^^")] {
        let line = format!("@a{{k, t = {{{wide}}} {}}}\n", behind.repeat(100));
        let file = Scratch::new("narrow.bib", line.as_bytes());
        for columns in [2, 7, 20, 60, 200] {
            let words = format!(
                "stty cols {columns}; $BIB check --color never {}",
                file.name()
            );
            let run = on_terminal(&words);
            let lines: Vec<&str> = run.text().lines().skip(1).take(2).collect();
            let width = |line: &str| -> usize {
                let wide = |c: char| if "漢字".contains(c) { 2 } else { 1 };
                line.trim_end().chars().map(wide).sum()
            };
            let [text, below] = [lines[0], lines[1]].map(width);
            assert!(text < columns && below < columns, "{columns}: {lines:?}");
            let is_used = text > columns - 4 && lines[1].trim() == marks;
            assert!(columns < 60 || is_used, "{columns}: {lines:?}");
        }
    }
}

/// A line that says where the work is, after a while, and is gone at the end.
#[test]
fn progress() {
    let mut file = b"@\n".repeat(400_000);
    file.pop();
    let file = Scratch::new("progress.bib", &file);
    let long = format!(
        "$BIB check {} > /dev/null",
        [file.name()].repeat(12).join(" ")
    );
    let run = on_terminal(&long);
    assert!(run.text().contains("\r\x1b[Kchecking "), "{:?}", run.text());
    let run = on_terminal(&format!("stty cols 12; {long}"));
    let mut shown = run.text().split("\r\x1b[K");
    assert!(
        shown.all(|line| line.trim_end().len() < 12),
        "{:?}",
        run.text()
    );
    assert!(run.text().ends_with("\r\x1b[K"), "{:?}", run.text());
    shell(&long).says(1, "");
    on_terminal(&format!(
        "$BIB check {} 2> /dev/null > /dev/null",
        file.name()
    ))
    .is(1, "");
}
