//! Files that were made to take long: nothing takes more than its part of the file's length.

use crate::run::{bib, shell, Scratch};

const LONGEST: usize = 16_777_215;

/// The processor's seconds that a check of this file takes, of so many bytes.
fn seconds(part: &str, bytes: usize) -> f64 {
    let text: Vec<u8> = part.bytes().cycle().take(bytes).collect();
    seconds_of(&format!("slow-{bytes}.bib"), &text)
}

/// The processor's seconds that a check of this file takes.
fn seconds_of(name: &str, text: &[u8]) -> f64 {
    let file = Scratch::new(name, text);
    let line = format!(
        "TIMEFORMAT='%U %S'; time $BIB check {} > /dev/null",
        file.name()
    );
    let run = shell(&line);
    let parts = run.err.split_whitespace().map(|part| part.parse::<f64>());
    parts.map(|part| part.expect("these are numbers")).sum()
}

/// The byte strings that hurt, alone and as they stand in each other: twice the bytes take twice the time,
/// and the longest file takes seconds.
#[test]
fn lints_in_proportion() {
    let parts = [
        "{",
        "a=}",
        "@",
        "\"",
        "\\",
        "\n",
        "%",
        "a={",
        "}a={{",
        "a{",
        "=",
        "\n @a{k,t={",
        "}@a{k,",
        "&",
        "&amp;",
        ",",
        ";",
        "Ã©",
        "\u{fffd}",
        "@a{k,author={&amp;Ã©а, b, c, d \u{200b}}}\n",
        "@a{k,t=\"&amp;\",auhtor={a,b,c,d},year=20144,pages={9-1},}\n",
        "@artcle{K,a=1}@artcle{k,a=1}",
        "@a{k,author={a,b,c,d},xdata={a,b,c,d,e,f},crossref=l}\n",
        "@a{k,publishet=1,publihser=1,pubisher=1,organisation=1,}",
    ];
    for part in parts {
        let (half, whole) = (seconds(part, LONGEST / 2), seconds(part, LONGEST));
        assert!(whole < 5.0, "{part:?} takes {whole} s");
        assert!(
            whole < 3.0 * half + 0.5,
            "{part:?} takes {half} s, and twice as much of it {whole} s"
        );
    }
}

/// Keys and names of fields that all differ, in case alone or in a letter, and as many references.
#[test]
fn names_in_proportion() {
    let keys = |n: usize| {
        let letters = format!("{n:024b}");
        format!("@a{{{},}}", letters.replace('0', "k").replace('1', "K"))
    };
    let fields = |n: usize| {
        let mut name = *b"publisher";
        for (place, letter) in name.iter_mut().enumerate() {
            *letter += ((n >> (2 * place)) % 3) as u8;
        }
        let name = String::from_utf8_lossy(&name).into_owned();
        format!("{}@a{{k,{name}=1,", if n > 0 { "}" } else { "" })
    };
    let references = |n: usize| format!("@a{{k{n},xdata={{z{n},k{}}}}}", n / 2);
    for (what, part) in [
        ("keys", &keys as &dyn Fn(usize) -> String),
        ("fields", &fields),
        ("references", &references),
    ] {
        let text = |bytes: usize| {
            let mut text = String::new();
            for part in (0..).map(part) {
                if text.len() + part.len() >= bytes {
                    break;
                }
                text += &part;
            }
            text
        };
        let [half, whole] = [LONGEST / 2, LONGEST].map(|bytes| {
            let name = format!("slow-{what}-{bytes}.bib");
            seconds_of(&name, text(bytes).as_bytes())
        });
        assert!(whole < 5.0, "{what} take {whole} s");
        assert!(
            whole < 3.0 * half + 0.5,
            "{what} take {half} s, and twice as many {whole} s"
        );
    }
}

/// Entries whose field has a name of 16 KB so many times.
fn multiplied(entries: usize, times: usize) -> String {
    let name = vec!["s"; times].join("#");
    let entry = |n| format!("@a{{k{n}, t = {name}}}\n");
    let all: String = (0..entries).map(entry).collect();
    format!(
        "@string{{s = {{{}}}}}\n{all}@b{{z, u = {{y}}}}\n",
        "x".repeat(16_380)
    )
}

/// Names multiply: what would pass the limit is said and left, and the rest goes on.
#[test]
fn names_that_multiply() {
    for entries in [10, 40] {
        let file = Scratch::new(
            format!("multiplied-{entries}.bib"),
            multiplied(entries, 4_096).as_bytes(),
        );
        let name = file.name();
        let most = "ulimit -v 1000000 -t 20;";
        let run = shell(&format!("{most} $BIB check {name}"));
        let line = format!(
            "{name}:2:12: error: with `t` resolved, the file would pass its limit, in entry k0 (16)"
        );
        assert_eq!(run.text().lines().next(), Some(line.as_str()));
        let hint = "  hint: it uses names that stand for long texts too often: write the text itself, or set --limit";
        assert_eq!(run.text().lines().nth(3), Some(hint));
        let summary = format!(
            "1 entry sound, {entries} with unresolved fields, {entries} errors, 0 warnings"
        );
        assert_eq!(run.text().lines().last(), Some(summary.as_str()));
        let run = shell(&format!("{most} $BIB write {name} 2> /dev/null"));
        assert_eq!((run.status, run.text()), (Some(1), "@b{z,\nu = {y},\n}\n"));
        let run = shell(&format!(
            "{most} $BIB resolve {name} | grep -c '^refused 16 '"
        ));
        run.is(0, &format!("{entries}\n"));
    }
}

/// The limit is of the whole file: the first fields are resolved, and those that still fit.
#[test]
fn limit() {
    let file = multiplied(10, 100);
    let sound = "11 entries sound, 0 errors, 0 warnings\n";
    bib(&["check"], file.as_bytes()).is(0, sound);
    // The definition itself, three fields of 1,638,400 bytes and a hundred names, and the last one.
    let run = bib(&["check", "--limit", "5000000"], file.as_bytes());
    let summary = "4 entries sound, 7 with unresolved fields, 7 errors, 0 warnings";
    assert_eq!(run.text().lines().last(), Some(summary));
    let shown = bib(
        &["show", "--limit=5000000", "-", "k2", "k3"],
        file.as_bytes(),
    );
    assert_eq!(shown.text().matches("(not resolved)").count(), 1);
    // A definition beyond it takes along what uses it.
    let nested = "@string{a = {xxxxxxxxxx}}\n@string{b = a # a}\n@x{k, t = b, u = a, v = {y}}";
    let run = bib(&["resolve", "--limit", "30"], nested.as_bytes());
    let refused: Vec<&str> = run
        .text()
        .lines()
        .filter(|line| line.starts_with("refused"))
        .collect();
    assert_eq!(refused, ["refused 16 38 43", "refused 16 55 56"]);
    assert_eq!(run.status, Some(1));
    bib(&["check", "--limit", "much"], b"").says(
        2,
        "bib: `much` is no number of bytes; `bib --help` shows what can be asked\n",
    );
    // A file without names has no limit but its own.
    let plain = format!("@a{{k, t = {{{}}}}}", "x".repeat(10_000));
    bib(&["check"], plain.as_bytes()).is(0, "1 entry sound, 0 errors, 0 warnings\n");
}
