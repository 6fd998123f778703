//! The program says the same over the original and over the proved library.

use std::path::Path;

use cases::{Grammar, Random};

/// Compares; whether both could be asked.
fn compare(source: &str) -> bool {
    let Some([original, ours]) = moved::both(source) else {
        return false;
    };
    assert!(original == ours, "{source}: {original:?} and {ours:?}");
    true
}

#[test]
fn on_fields_made_by_hand() {
    let original = moved::with_months(moved::original::made_by_hand);
    assert_eq!(original, moved::ours::made_by_hand());
}

#[test]
fn on_the_examples() {
    let folder = Path::new(env!("CARGO_MANIFEST_DIR")).join("../../examples");
    let mut compared = 0;
    for file in cases::files(&[folder]) {
        // A source is text: what is not UTF-8 has no place here.
        if let Ok(source) = std::str::from_utf8(&file) {
            compared += usize::from(compare(source));
        }
    }
    assert!(compared > 50, "only {compared} examples were compared");
}

/// What strict reading takes, with names in every order, and what it does not.
const SOURCES: [&str; 21] = [
    "",
    "@preamble{\"a\"} @preamble{ {b} } @preamble{\"c\"}",
    "@a{k,}",
    "@a{k}",
    "@a{k,t=}",
    "@a{k,y=1.2.3}",
    "@a{k, t = {x\\}y} }",
    "@string{a={x}}@b{k,t=a#{y}#may}@string{a={{z}}#b}@string{b=jan}",
    "@string{a={{x}}}@b{k,t={{y}}#a#{{z}}#a#{$m$}#a}",
    "@b{k,t=a#{y},u={$}#a,v=\"}\",w={\\'}#{e}}",
    "@b{k,url={\\%--$},file=a#{\\'e}}@string{a={\\'e}}",
    "@string{\u{e9}={x},e\u{301}={y}}@b{k,t=\u{e9}#e\u{301}#\u{e8}}",
    "@b{k,T={\\'{\\i} --- \\\"o {\\emph{a {b}}} $x_1$},URL={\\'e},y=1998#{ }#12}",
    "@string{a={}}@b{k,t=a#a,u={}#a#{},v={{}}#a}",
    "@a{k,t={a\n  b\r\n\r\nc}}",
    "@comment{x} text @b{k, t = {a},, }",
    "@a{k \u{e9},}",
    "@a{k,t \u{6f22} {x}}",
    "@preamble{\u{1f600}",
    "@a{k,t=\u{86}}",
    "@a{k,y=12",
];

#[test]
fn on_sources() {
    let compared = SOURCES.into_iter().filter(|source| compare(source));
    assert_eq!(compared.count(), SOURCES.len());
}

/// What the program works out for the original, whose places of reading are empty, ours says itself.
#[test]
fn on_places() {
    let mut widths = Vec::new();
    for source in SOURCES {
        let original = oracle::raw::RawBibliography::parse(source);
        let ours = biblatex_shapes::RawBibliography::parse(source);
        if let (Err(original), Err(ours)) = (original, ours) {
            assert_eq!(original.span.len(), 0, "{source}");
            let underlined = moved::original::underlined(source, original);
            assert_eq!(ours.span, underlined.span, "{source}");
            widths.push(ours.span.len());
        }
    }
    assert_eq!(widths, [1, 1, 1, 1, 1, 2, 3, 4, 2, 0]);
}

/// Files drawn by the grammar of .bib files.
#[test]
fn on_drawn_files() {
    let (mut random, mut file) = (Random::new(1, 22), Vec::new());
    let mut compared = 0;
    for _ in 0..3_000 {
        file.clear();
        let (random, out, odd) = (&mut random, &mut file, usize::MAX);
        Grammar { random, out, odd }.file(20);
        if let Ok(source) = std::str::from_utf8(&file) {
            compared += usize::from(compare(source));
        }
    }
    assert!(compared > 2_000, "only {compared} files were compared");
}
