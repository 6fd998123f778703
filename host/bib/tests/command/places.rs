//! `bib show` with places: `--places` for people, and `--json` for screens.

use std::ffi::OsStr;
use std::os::unix::ffi::OsStrExt;

use crate::run::{bib, Scratch};

#[test]
fn places() {
    let file =
        "% é\n@string{a = {x}}\n@b{k,\n\ttitle = {T}, é = a # {y} # jan,\n}\n\n@b{, u = no}\n";
    let run = bib(&["show", "--places"], file.as_bytes());
    assert_eq!(
        run.text(),
        "\
3:1  b k
4:2    title  T
4:15   é      xyJanuary
4:19     a, defined at 2:9
4:29     jan, a month

7:1  b (no key)
7:6    u  (not resolved)
7:10     no, without a definition
<stdin>:7:10: error: a name without a definition: `no`, in the entry (12)
@b{, u = no}
         ^
  hint: put a text into braces: {no}; or define the name in this file: @string{no = {..}}
"
    );
    assert_eq!((run.status, run.err.as_str()), (Some(1), ""));
}

/// The last definition counts; and that of another file has its name.
#[test]
fn places_of_definitions() {
    let strings = Scratch::new("places-strings.bib", b"@string{a=1,\n b=2}\n@string{b=3}");
    let name = strings.name();
    let words = ["show", "--places", "--strings", name];
    let file = b"@b{k, t = a # b}\n@string{a={x}}\n@string{a={y}}";
    let shown = format!(
        "\
1:1  b k
1:7    t  y3
1:11     a, defined at 3:9
1:15     b, defined at {name}:3:9
"
    );
    bib(&words, file).is(0, &shown);
}

/// The example of the page of the manual: the file and, with its lines joined, what is printed of it.
#[test]
fn example_of_the_manual() {
    let page = include_str!("../../share/bib.1")
        .replace("\\-", "-")
        .replace("\\e", "\\");
    let (_, section) = page.split_once(".SH JSON OF SHOW").expect("it is there");
    let mut examples = section.split(".nf\n").skip(1);
    let mut example = || {
        let text = examples.next().and_then(|text| text.split(".fi\n").next());
        text.expect("it is an example")
    };
    let (file, want) = (example(), example().replace('\n', ""));
    bib(&["show", "--json"], file.as_bytes()).is(0, &(want + "\n"));
}

#[test]
fn json() {
    let file = "@a{k}\n@b{l, t = {\\\"a} # {b}, u = x}\n@string{a={\u{1b}é}}\n@c{m, v = a # mar}\n";
    let run = bib(&["show", "--json", "-"], file.as_bytes());
    let want = concat!(
        r#"{"file":"<stdin>","line":1,"column":5,"start":4,"end":5,"number":7,"name":"expected-comma","#,
        r#""level":"error","message":"expected a comma, in entry k","#,
        r#""hint":"BibTeX takes an entry without fields so, but this reader wants a comma: write `{k,}`","#,
        r#""key":"k"}"#,
        "\n",
        r#"{"file":"<stdin>","type":"b","key":"l","line":2,"column":1,"start":6,"end":35,"fields":["#,
        r#"{"name":"t","line":2,"column":7,"start":12,"end":13,"value_start":16,"value_end":27,"#,
        r#""text":"äb","chunks":[{"kind":"normal","text":"äb","start":17,"end":26}],"names":[],"error":null},"#,
        r#"{"name":"u","line":2,"column":24,"start":29,"end":30,"value_start":33,"value_end":34,"#,
        r#""text":null,"chunks":[],"#,
        r#""names":[{"name":"x","line":2,"column":28,"start":33,"end":34,"definition":null}],"#,
        r#""error":{"file":"<stdin>","line":2,"column":28,"start":33,"end":34,"number":12,"#,
        r#""name":"unknown-name","level":"error","message":"a name without a definition: `x`, in entry l","#,
        r#""hint":"put a text into braces: {x}; or define the name in this file: @string{x = {..}}","#,
        r#""key":"l"}}]}"#,
        "\n",
        r#"{"file":"<stdin>","type":"c","key":"m","line":4,"column":1,"start":53,"end":71,"fields":["#,
        r#"{"name":"v","line":4,"column":7,"start":59,"end":60,"value_start":63,"value_end":70,"#,
        r#""text":"\u001béMarch","chunks":[{"kind":"normal","text":"\u001béMarch","start":47,"end":70}],"#,
        r#""names":[{"name":"a","line":4,"column":11,"start":63,"end":64,"#,
        r#""definition":{"line":3,"column":9,"start":44,"end":45}},"#,
        r#"{"name":"mar","line":4,"column":15,"start":67,"end":70,"definition":null}],"error":null}]}"#,
        "\n",
    );
    assert_eq!(run.text(), want);
    assert_eq!((run.status, run.err.as_str()), (Some(1), ""));
    // Of one entry alone, and with the places, which it has anyway.
    let run = bib(&["show", "--places", "--json", "-", "m"], file.as_bytes());
    run.is(
        0,
        want.lines()
            .last()
            .map(|line| format!("{line}\n"))
            .unwrap_or_default()
            .as_str(),
    );
}

/// What other files lend has their numbers.
#[test]
fn json_of_lent_definitions() {
    let one = Scratch::new("json-one.bib", b"@string{z={Z}}");
    let two = Scratch::new("json-two.bib", b"\n@string{a={A}}");
    let words = [
        "show",
        "--json",
        "--strings",
        one.name(),
        "--strings",
        two.name(),
    ];
    let run = bib(&words, b"@b{k,t={x}#a}");
    let want = concat!(
        r#""text":"xA","chunks":[{"kind":"normal","text":"xA","start":8,"end":13,"end_lender":2}],"#,
        r#""names":[{"name":"a","line":1,"column":12,"start":11,"end":12,"#,
        r#""definition":{"line":2,"column":9,"start":9,"end":10,"lender":2}}],"error":null}]}"#,
        "\n"
    );
    assert!(run.text().ends_with(want), "{}", run.text());
}

/// A file whose name is not UTF-8 has its bytes beside it.
#[test]
fn json_of_odd_names() {
    let file = Scratch::new(OsStr::from_bytes(b"screen\xff.bib"), b"@a{k,t=x}");
    let words = [OsStr::new("show"), OsStr::new("--json"), file.0.as_os_str()];
    let run = bib(&words, b"");
    let digits = |bytes: &[u8]| {
        bytes
            .iter()
            .map(|byte| format!("{byte:02x}"))
            .collect::<String>()
    };
    let hex = format!("\"file_hex\":\"{}\"", digits(file.0.as_os_str().as_bytes()));
    assert_eq!(run.text().matches(&hex).count(), 2, "{}", run.text());
}
