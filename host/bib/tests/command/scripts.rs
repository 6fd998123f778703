//! `rows`, `salvage`, `pack` and `unpack`: lines and bytes for scripts.

use crate::run::{bib, shell, Run, Scratch};

/// Document 01's cases of the edge table, and of the row-printing program.
#[test]
fn rows() {
    bib(&["rows"], b"").is(0, "rows 0\n");
    bib(&["rows"], b"@a{k,}").is(0, "1 0 0 5\n2 0 1 2\n3 0 3 4\nrows 3\n");
    bib(&["rows"], b"@a{k}").is(1, "refused 7 4 5\n");
    bib(&["rows"], b"@a{k,t=}").is(1, "refused 3 7 8\n");
    bib(&["rows"], b"@a{k,y=1.2.3}").is(1, "refused 10 10 11\n");
    bib(&["rows"], b"@a{k,y=12").is(1, "refused 3 9 9\n");
    bib(&["rows"], b"@preamble{\"x\"\"").is(0, "0 0 10 13\nrows 1\n");
    bib(&["rows"], b"\xe2\x82\x40\x61\x7b").is(1, "refused 2 0 0\n");
}

/// A refusal takes in the whole character at which reading stopped, of one byte to four.
#[test]
fn whole_characters() {
    for (c, line) in [("~", "5 6"), ("é", "5 7"), ("漢", "5 8"), ("😀", "5 9")] {
        let file = format!("@a{{k {c},}}");
        let refused = format!("refused 7 {line}\n");
        bib(&["rows"], file.as_bytes()).is(1, &refused);
        bib(&["resolve"], file.as_bytes()).is(1, &refused);
        bib(&["pack"], file.as_bytes()).says(1, &refused);
        let rows = format!("9 0 0 {}\n10 7 {line}\nrows 2\n", file.len());
        bib(&["salvage"], file.as_bytes()).is(1, &rows);
    }
}

#[test]
fn salvage() {
    // The piece is read alone, so that its cause is empty where the next begins.
    let rows = "9 0 0 4\n10 7 4 4\n1 0 4 9\n2 0 5 6\n3 0 7 8\nrows 5\n";
    bib(&["salvage"], b"@a{\n@b{k,}").is(1, rows);
    bib(&["salvage"], b"\xff").is(1, "9 0 0 1\n10 2 0 0\nrows 2\n");
}

/// Every number is printed in full: an entry behind ten million blanks.
#[test]
fn large_numbers() {
    let mut file = vec![b' '; 9_999_999];
    file.extend(b"@a{k,}");
    let rows = "1 0 9999999 10000004\n2 0 10000000 10000001\n3 0 10000002 10000003\nrows 3\n";
    bib(&["rows"], &file).is(0, rows);
}

#[test]
fn files_and_standard_input() {
    let file = Scratch::new("named.bib", b"@a{k,}");
    let rows = "1 0 0 5\n2 0 1 2\n3 0 3 4\nrows 3\n";
    bib(&["rows", file.name()], b"no").is(0, rows);
    bib(&["rows", "-"], b"@a{k,}").is(0, rows);
    bib(&["salvage", "-"], b"@a{k,}").is(0, rows);
    bib(&["salvage", file.name()], b"no").is(0, rows);
}

/// A file may have 16,777,215 bytes, and not one more, however it is read.
#[test]
fn longest_file() {
    let mut file = vec![b'\n'; 16_777_215];
    bib(&["rows"], &file).is(0, "rows 0\n");
    bib(&["salvage"], &file).is(0, "rows 0\n");
    file.push(b'\n');
    for work in ["rows", "salvage"] {
        bib(&[work], &file).is(1, "refused 1 0 0\n");
    }
    bib(&["pack"], &file).says(1, "refused 1 0 0\n");
    let long = Scratch::new("long.bib", &file);
    bib(&["rows", long.name()], b"").is(1, "refused 1 0 0\n");
}

/// There is no end to read to, and none is needed.
#[test]
fn endless_file() {
    shell("$BIB rows < /dev/zero").is(1, "refused 1 0 0\n");
    let sentence = "bib: <stdin> has more bytes than the rows of any file, 117440512\n";
    shell("$BIB unpack < /dev/zero").says(2, sentence);
}

#[test]
fn pack() {
    let packed = [
        0x10, 0, 0, 0, 0, 0, 5, 0x20, 0, 0, 1, 0, 0, 1, 0x30, 0, 0, 3, 0, 0, 1,
    ];
    let run = bib(&["pack"], b"@a{k,}");
    let want = Run {
        status: Some(0),
        out: packed.to_vec(),
        err: String::new(),
    };
    assert_eq!(run, want);
    let file = Scratch::new("packed.bib", b"@a{k,}");
    assert_eq!(bib(&["pack", file.name()], b""), want);
    bib(&["pack"], b"@a{k}").says(1, "refused 7 4 5\n");
}

#[test]
fn unpack() {
    let text = b"@a{k, t = {x} # y}\n@string{y = 1}\n@preamble{\"z\"}";
    let packed = bib(&["pack"], text).out;
    let rows = bib(&["rows"], text);
    assert_eq!(bib(&["unpack"], &packed), rows);
    let file = Scratch::new("packed.rows", &packed);
    assert_eq!(bib(&["unpack", file.name()], b""), rows);
    bib(&["unpack"], b"").is(0, "rows 0\n");
    bib(&["unpack"], &packed[1..]).is(1, "refused 17 0 0\n");
    bib(&["unpack"], &packed[7..]).is(1, "refused 17 0 0\n");
}

#[test]
fn closed_pipe() {
    let line = "yes '@a{k,}' | head -n 200000 | $BIB rows | head -n 1; echo ${PIPESTATUS[2]}";
    shell(line).is(0, "1 0 0 5\n141\n");
    let line = "yes '@' | head -n 200000 | $BIB check | head -n 1; echo ${PIPESTATUS[2]}";
    let finding = "<stdin>:1:2: error: expected an identifier (4)";
    shell(line).is(0, &format!("{finding}\n141\n"));
}

const WORKS: [&str; 7] = [
    "rows", "check", "pack", "show", "write", "resolve", "--help",
];

#[test]
fn full_device() {
    let sentence = "bib: cannot write the output: no space left on device\n";
    for work in WORKS {
        let run = shell(&format!("printf '@a{{k,t=1}}' | $BIB {work} > /dev/full"));
        run.says(2, sentence);
    }
}

/// What is printed is lost: that is no success. Whoever asks for no output needs none.
#[test]
fn closed_output() {
    let sentence = "bib: cannot write the output: it is closed\n";
    for work in WORKS
        .into_iter()
        .chain(["salvage", "--version", "check --list"])
    {
        shell(&format!("printf '@a{{k,t=1}}' | $BIB {work} >&-")).says(2, sentence);
    }
    shell("printf '@a{k,t=1}' | $BIB check -q >&-").says(0, "");
    shell("printf '@a{k,t=}' | $BIB check -q >&-").says(1, "");
}
