//! `bib resolve`: every value resolved, in lines for scripts.

use crate::run::{bib, shell, Scratch};

/// A text as it is printed.
fn hex(text: &str) -> String {
    let digits = text.bytes().map(|byte| format!("{byte:02x}"));
    format!("x{}", digits.collect::<String>())
}

/// The lines of a value: how it is written in the four ways.
fn written(verbatim: &str, sentence: &str, bib0: &str, bib1: &str) -> String {
    let [verbatim, sentence, bib0, bib1] = [verbatim, sentence, bib0, bib1].map(hex);
    format!("verbatim {verbatim}\nsentence {sentence}\nbib0 {bib0}\nbib1 {bib1}\n")
}

#[test]
fn every_value() {
    let file = "@string{a={x}}@b{k,t={G\\\"odel {P} $y$}#a,Url={a--b_},u=c,m=may}";
    let [a, t, url, u, m] = ["a", "t", "Url", "u", "m"].map(hex);
    let definition = format!("def {a} 10 13\nnames 0\nchunk 0 {} 11 12\n", hex("x"));
    let chunks = format!(
        "field {t} 21 40\nnames 1\nchunk 0 {} 22 30\nchunk 1 {} 31 32\nchunk 0 {} 33 34\n\
         chunk 2 {} 35 36\nchunk 0 {} 11 12\n",
        hex("Gödel "),
        hex("P"),
        hex(" "),
        hex("y"),
        hex("x")
    );
    let text = "Gödel P $y$x";
    let written_back = "{Gödel {P} $y$x}";
    let dashes = format!(
        "field {url} 45 52\nnames 0\nchunk 0 {} 46 51\n",
        hex("a–b_")
    );
    let refused = format!("field {u} 55 56\nrefused 12 55 56\nfield {m} 59 62\n");
    let want = [
        definition,
        written("x", "X", "{x}", "{x}"),
        format!("entry {} 14 62\n", hex("k")),
        chunks,
        written(text, "Gödel P $y$x", written_back, written_back),
        dashes,
        written("a–b_", "A–b_", "{a–b\\_}", "{a–b_}"),
        refused,
    ]
    .concat();
    let month = "refused 12 59 62\n";
    bib(&["resolve"], file.as_bytes()).is(1, &format!("{want}{month}"));
    let none = ["resolve", "--verbatim", "none", "--months=none", "-"];
    bib(&none, file.as_bytes()).is(1, &format!("{want}{month}"));
    let month = format!("names 1\nchunk 0 {} 59 62\n", hex("May"))
        + &written("May", "May", "{May}", "{May}");
    let english = ["resolve", "--months", "english"];
    bib(&english, file.as_bytes()).is(1, &format!("{want}{month}"));
}

/// Every value has its line in sentence case, that of a definition and of a verbatim field too: only braces
/// keep capitals.
#[test]
fn sentences() {
    let file = "@string{a={THE }}@b{k,t=a#{{NASA} Of $X$\nY},url={HTTP://X}}";
    let run = bib(&["resolve", "--verbatim", "names"], file.as_bytes());
    assert_eq!((run.status, run.err.as_str()), (Some(0), ""));
    let lines = run.text().lines();
    let lines = lines.filter_map(|line| line.strip_prefix("sentence "));
    let want = ["The ", "The NASA of $X$ y", "Http://x"].map(hex);
    assert_eq!(lines.collect::<Vec<_>>(), want);
}

/// By the Rust's list of names in small or large letters, or all, definitions too.
#[test]
fn verbatim_values() {
    let file = b"@string{a={--}}@b{k,URL={--},t={--}}";
    let dashes = |way: &str| -> Vec<bool> {
        let run = bib(&["resolve", "--verbatim", way], file);
        assert_eq!((run.status, run.err.as_str()), (Some(0), ""));
        let chunks = run.text().lines().filter(|line| line.starts_with("chunk"));
        chunks.map(|line| line.contains(&hex("--"))).collect()
    };
    assert_eq!(dashes("none"), [false, false, false]);
    assert_eq!(dashes("names"), [false, true, false]);
    assert_eq!(dashes("all"), [true, true, true]);
}

/// Strict reading decides: where it refuses, that is the one line.
#[test]
fn refused_files() {
    bib(&["resolve"], b"").is(0, "");
    bib(&["resolve"], b"@a{k,}").is(0, "entry x6b 0 5\n");
    bib(&["resolve"], b"@a{k, t = x}\n@a{k}").is(1, "refused 7 17 18\n");
    bib(&["resolve"], b"@a{k, t = {\xff}}").is(1, "refused 2 11 11\n");
    bib(&["resolve"], &vec![b' '; 16_777_216]).is(1, "refused 1 0 0\n");
}

/// A value that is refused stops no other, and the file is not refused for it; the exit status says it.
#[test]
fn refused_values() {
    let file = "@b{k,t=\"}\",u={$x},w=w}@string{w=w}";
    let run = bib(&["resolve"], file.as_bytes());
    let lines: Vec<&str> = run.text().lines().collect();
    let [t, u, w] = ["t", "u", "w"].map(hex);
    let want = [
        format!("entry {} 0 21", hex("k")),
        format!("field {t} 7 10"),
        "refused 11 8 9".into(),
        format!("field {u} 13 17"),
        "refused 3 16 16".into(),
        format!("field {w} 20 21"),
        "refused 13 32 33".into(),
        format!("def {w} 32 33"),
        "refused 13 32 33".into(),
    ];
    assert_eq!(lines, want);
    assert_eq!(run.status, Some(1));
}

#[test]
fn files_and_pipes() {
    let file = Scratch::new("resolve.bib", b"@a{k,t={x}}");
    let want = bib(&["resolve"], b"@a{k,t={x}}");
    assert_eq!(bib(&["resolve", file.name()], b""), want);
    let line =
        "yes '@a{k,t={x}}' | head -n 200000 | $BIB resolve | head -n 1; echo ${PIPESTATUS[2]}";
    shell(line).is(0, "entry x6b 0 10\n141\n");
}

/// Of a damaged file the sound pieces are resolved, and the damaged ones said.
#[test]
fn damaged_files() {
    let file = b"@a{k, t = \xff}\n@string{s = {x}}\n@b{l, t = s}\n@c{m}\n";
    let want = [
        "damaged 2 0 13\n".to_string(),
        format!("def {} 25 28\nnames 0\nchunk 0 x78 26 27\n", hex("s")),
        written("x", "X", "{x}", "{x}"),
        format!("entry {} 30 41\n", hex("l")),
        format!("field {} 40 41\nnames 1\nchunk 0 x78 26 27\n", hex("t")),
        written("x", "X", "{x}", "{x}"),
        "damaged 7 43 49\n".to_string(),
    ];
    bib(&["resolve", "--salvage"], file).is(1, &want.concat());
    bib(&["resolve"], file).is(1, "refused 2 10 10\n");
    let sound = b"@a{k, t = {x}}";
    assert_eq!(
        bib(&["resolve", "--salvage"], sound),
        bib(&["resolve"], sound)
    );
}
