//! What the command is told.

use bib::check::LINTS;

use crate::run::{bib, shell, Folder, Scratch};

/// A word that it does not know, and what it says of it.
#[track_caller]
fn refused(words: &[&str], sentence: &str) {
    let hint = "`bib --help` shows what can be asked";
    let end = if sentence.ends_with('?') { "" } else { ";" };
    bib(words, b"@a{k,}").says(2, &format!("bib: {sentence}{end} {hint}\n"));
}

#[test]
fn unknown_words() {
    refused(&[], "nothing was asked");
    refused(&["read"], "`read` is not known");
    refused(&["--long"], "`--long` is not known");
    refused(&["rows", "--long"], "`--long` is not known");
    refused(&["check", "-x"], "`-x` is not known");
    refused(&["rows", "a", "b"], "`bib rows` takes one file");
    refused(&["unpack", "-", "-"], "`bib unpack` takes one file");
    refused(&["write", "a", "b"], "`bib write` takes one file");
    refused(&["resolve", "a", "b"], "`bib resolve` takes one file");
    refused(&["show", "-x"], "`-x` is not known");
    refused(
        &["resolve", "--months"],
        "`--months` wants a word behind it",
    );
}

#[test]
fn misspelt_words() {
    refused(&["chekc"], "`chekc` is not known, did you mean `check`?");
    refused(
        &["--versoin"],
        "`--versoin` is not known, did you mean `--version`?",
    );
    refused(
        &["mine.bib"],
        "`mine.bib` is no work to do, did you mean `bib check mine.bib`?",
    );
    refused(
        &["check", "--jsn"],
        "`--jsn` is not known, did you mean `--json`?",
    );
    let words = ["check", "--allow", "duplicate-keys"];
    refused(
        &words,
        "`duplicate-keys` is not known, did you mean `duplicate-key`?",
    );
    refused(
        &["check", "--color=alway"],
        "`alway` is not known, did you mean `always`?",
    );
    refused(&["check", "--deny"], "`--deny` wants a word behind it");
    refused(&["shwo"], "`shwo` is not known, did you mean `show`?");
    refused(
        &["reslove"],
        "`reslove` is not known, did you mean `resolve`?",
    );
    refused(
        &["resolve", "--verbatim", "name"],
        "`name` is not known, did you mean `names`?",
    );
    refused(
        &["resolve", "--month=english"],
        "`--month=english` is not known",
    );
    refused(
        &["resolve", "--months=englsh"],
        "`englsh` is not known, did you mean `english`?",
    );
    refused(
        &["check", "--no-reslove"],
        "`--no-reslove` is not known, did you mean `--no-resolve`?",
    );
    refused(
        &["check", "--strict=1"],
        "`--strict=1` is not known, did you mean `--strict`?",
    );
    refused(&["a\x1bb"], "`a\\u{1b}b` is not known");
    let folder = Folder::new("named-folder");
    let name = folder.name();
    refused(
        &[name],
        &format!("`{name}` is no work to do, did you mean `bib check {name}`?"),
    );
}

#[test]
fn help() {
    let run = bib(&["--help"], b"");
    run.is(0, run.text());
    for word in [
        "check",
        "show",
        "write",
        "resolve",
        "rows",
        "salvage",
        "pack",
        "unpack",
        "--version",
    ] {
        assert!(run.text().contains(&format!("bib {word}")), "{word}");
    }
    for word in [
        "allow",
        "deny",
        "strict",
        "all",
        "no-resolve",
        "list",
        "json",
        "quiet",
        "color",
        "sentence",
        "strings",
    ] {
        assert!(run.text().contains(&format!("\n  --{word}")), "{word}");
    }
    assert_eq!(bib(&["-h"], b""), run);
    assert_eq!(bib(&["rows", "--help"], b""), run);
    assert_eq!(bib(&["check", "file", "-h"], b""), run);
}

/// The page of the manual and the completions know all that the help knows.
#[test]
fn manual_and_completions() {
    let page = include_str!("../../share/bib.1").replace('\\', "");
    let bash = include_str!("../../share/bib.bash");
    let zsh = include_str!("../../share/bib.zsh");
    let fish = include_str!("../../share/bib.fish");
    let help = bib(&["--help"], b"").text().to_string();
    let words = help.lines().filter_map(|line| line.strip_prefix("  "));
    let words = words.map(|line| line.strip_prefix("bib ").unwrap_or(line));
    let words = words.filter_map(|line| line.split([' ', ',']).next());
    assert!(words.clone().count() >= 14);
    for word in words {
        let short = format!("-l {}", word.trim_start_matches('-'));
        let long = if word.starts_with('-') { &short } else { word };
        for (text, word) in [(&*page, word), (bash, word), (zsh, word), (fish, long)] {
            assert!(text.contains(word), "{word} is missing in {}", &text[..40]);
        }
    }
    let version = env!("CARGO_PKG_VERSION");
    assert!(page.contains(&format!("\"bib {version}\"")));
    let readme = include_str!("../../../../README.md");
    for about in &LINTS {
        assert!(
            page.contains(about.name),
            "{} is not in the manual",
            about.name
        );
        let name = format!("`{}`", about.name);
        assert!(readme.contains(&name), "{name} is not in README.md");
    }
}

#[test]
fn version() {
    let made_of = match proved::SOURCES {
        "" => "a library that does not say what it was made of\n".into(),
        sources => format!(
            "library proved and compiled by {}\nof sources with the sum {sources}\n",
            proved::KIT
        ),
    };
    let version = format!("bib {}\n{made_of}", env!("CARGO_PKG_VERSION"));
    bib(&["--version"], b"").is(0, &version);
    bib(&["-V"], b"").is(0, &version);
}

#[test]
fn unreadable_files() {
    let missing = "bib: cannot read no/such.bib: no such file or directory\n";
    let folder = "bib: cannot read /: is a directory\n";
    for work in [
        "show", "write", "resolve", "rows", "salvage", "pack", "unpack",
    ] {
        bib(&[work, "no/such.bib"], b"").says(2, missing);
        bib(&[work, "/"], b"").says(2, folder);
    }
    bib(&["check", "no/such.bib"], b"").says(2, missing);
    shell("$BIB rows < /").says(2, "bib: cannot read <stdin>: is a directory\n");
    let line = "$BIB rows 0> /dev/null";
    shell(line).says(2, "bib: cannot read <stdin>: bad file descriptor\n");
    for work in ["check", "show", "write", "resolve", "rows", "unpack"] {
        let line = format!("$BIB {work} <&-");
        shell(&line).says(2, "bib: cannot read <stdin>: it is closed\n");
    }
    shell("$BIB rows < /dev/null").is(0, "rows 0\n");
}

/// A file of more bytes than there may be memory.
#[test]
fn file_beyond_memory() {
    let file = Scratch::new("sparse.rows", b"");
    let made = std::fs::File::options().write(true).open(&file.0);
    made.and_then(|made| made.set_len(1 << 33))
        .expect("a file can be long and empty");
    let name = file.name();
    let sentence = format!("bib: {name} has more bytes than the rows of any file, 117440512\n");
    bib(&["unpack", name], b"").says(2, &sentence);
    let sentence = format!("bib: cannot read {name}: out of memory\n");
    shell(&format!("ulimit -v 100000; $BIB unpack {name}")).says(2, &sentence);
    bib(&["rows", name], b"").is(1, "refused 1 0 0\n");
}

/// After `--` a word is a file, though it begins with `-`.
#[test]
fn files_that_look_like_words() {
    let file = Scratch::new("-h", b"@a{k,}");
    let folder = file.0.parent().expect("the file is in a folder").display();
    let rows = "1 0 0 5\n2 0 1 2\n3 0 3 4\nrows 3\n";
    shell(&format!("cd '{folder}' && $BIB rows -- -h")).is(0, rows);
}
