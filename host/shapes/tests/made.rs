//! Fields that no file has: made by hand, standing anywhere, with nothing in them, and past the limits. And
//! the spans of errors of reading, which the original does not have so.

use std::collections::HashMap;

use biblatex_shapes::raw::{Field, ParseErrorKind, RawBibliography, RawChunk};
use biblatex_shapes::resolve::parse_field;
use biblatex_shapes::{Chunk, ChunksExt, Span, Spanned};

fn literal(text: &str, start: usize) -> Spanned<RawChunk<'_>> {
    Spanned::new(RawChunk::Normal(text), start..start + text.len())
}

fn name(text: &str, start: usize) -> Spanned<RawChunk<'_>> {
    Spanned::new(RawChunk::Abbreviation(text), start..start + text.len())
}

fn normal(text: &str, span: Span) -> Spanned<Chunk> {
    Spanned::new(Chunk::Normal(text.into()), span)
}

#[test]
fn places() {
    let (a, b) = (vec![literal("x{y}", 500)], vec![name("a", 40)]);
    let map = HashMap::from([("a", &a), ("b", &b)]);
    let field = vec![literal("", 7), name("b", 1_000), literal("z", 3)];
    let chunks = parse_field("title", &field, &map).unwrap();
    let y = Spanned::new(Chunk::Verbatim("y".into()), 502..503);
    assert_eq!(chunks, [normal("x", 7..501), y, normal("z", 3..4)]);
    assert_eq!(chunks.span(), Span { start: 7, end: 4 });
    let month = parse_field("month", &vec![name("may", 9)], &map).unwrap();
    assert_eq!(month, [normal("May", 9..12)]);
}

/// A definition without elements stands for nothing, and so does one that names only such.
#[test]
fn nothing() {
    let (none, both) = (vec![], vec![name("none", 0), name("none", 5)]);
    let map = HashMap::from([("none", &none), ("both", &both)]);
    let resolved = |field: Field| parse_field("t", &field, &map).unwrap();
    assert_eq!(resolved(vec![]), []);
    assert_eq!(resolved(vec![name("both", 0)]), []);
    let around = vec![literal("{x}", 0), name("both", 10), literal("{y}", 20)];
    let x = Spanned::new(Chunk::Verbatim("x".into()), 1..2);
    let y = Spanned::new(Chunk::Verbatim("y".into()), 21..22);
    assert_eq!(
        resolved(around),
        [normal("", 0..0), x, normal("", 20..20), y]
    );
    assert_eq!([].format_verbatim(), "");
    assert_eq!([].format_sentence(), "");
    assert_eq!([].to_biblatex_string(false), "{}");
    assert_eq!([].span(), 0..0);
}

#[test]
fn refusals() {
    let refused = |field: Field, map: &HashMap<&str, &Field>| {
        let error = parse_field("title", &field, map).unwrap_err();
        (error.kind, error.span)
    };
    let none = HashMap::new();
    let unknown = ParseErrorKind::UnknownAbbreviation("b".into());
    assert_eq!(refused(vec![name("b", 9)], &none), (unknown, 9..10));
    let eof = (ParseErrorKind::UnexpectedEof, 5..5);
    assert_eq!(refused(vec![literal("a$b", 2)], &none), eof);
    assert_eq!(refused(vec![literal("", 9), literal("$", 4)], &none), eof);
    let cycle = vec![name("a", 30)];
    let map = HashMap::from([("a", &cycle)]);
    let cyclic = ParseErrorKind::CyclicAbbreviation("a".into());
    assert_eq!(refused(vec![name("a", 9)], &map), (cyclic, 30..31));
    let long = "x".repeat(16_385);
    let too_long = (ParseErrorKind::TooLong, 8..8 + 16_385);
    assert_eq!(refused(vec![literal(&long, 8)], &none), too_long);
    let deep = "\\x{".repeat(65) + &"}".repeat(65);
    let brace = 1 + 3 * 64 + 2;
    let too_deep = (ParseErrorKind::TooDeep, brace..brace + 1);
    assert_eq!(refused(vec![literal(&deep, 1)], &none), too_deep);
    let many = vec![name("may", 0); 4_097];
    assert_eq!(refused(many, &none), (ParseErrorKind::TooManyNames, 0..3));
}

/// Errors of reading have the whole character, and at the end of the source none; those of resolving are
/// as the original has them.
#[test]
fn culprits() {
    use biblatex_shapes::Token::*;
    use ParseErrorKind::{Expected, Unexpected, UnexpectedEof};
    let cases = [
        ("@a{k}", Expected(Comma), 4..5),
        ("@a{k,t=}", UnexpectedEof, 7..8),
        ("@a{k,y=1.2.3}", Unexpected(DecimalPoint), 10..11),
        ("@a{k,y=12", UnexpectedEof, 9..9),
        ("@a{k é,}", Expected(Comma), 5..7),
        ("@a{k 漢,}", Expected(Comma), 5..8),
        ("@a{k 😀", Expected(Comma), 5..9),
        ("@a{k ", Expected(Comma), 5..5),
        ("@\u{3000}a{k,}", Expected(Identifier), 1..4),
        ("@a é", Expected(OpeningBrace), 3..5),
        ("@preamble{漢}", Expected(QuotationMark), 10..13),
        ("@preamble{\"漢\"😀}", Expected(ClosingBrace), 15..19),
        ("@a{k,t é}", Expected(Equals), 7..9),
    ];
    for (source, kind, span) in cases {
        let error = RawBibliography::parse(source).unwrap_err();
        assert_eq!((error.kind, error.span), (kind, span), "{source}");
    }
    let raw = RawBibliography::parse("@a{k,t={$x}}").unwrap();
    let field = &raw.entries[0].v.fields[0];
    let error = parse_field("t", &field.value.v, &HashMap::new()).unwrap_err();
    assert_eq!((error.kind, error.span), (UnexpectedEof, 10..10));
}

/// What makes a chunk, and its text.
type Part<'a> = (fn(String) -> Chunk, &'a str);

/// Chunks in sentence case, wherever they stand.
fn sentence(parts: &[Part]) -> String {
    let parts = parts.iter();
    let chunks = parts.map(|(kind, text)| Spanned::new(kind(text.to_string()), 2..5));
    chunks.collect::<Vec<_>>().format_sentence()
}

/// In sentence case, with what may surprise: worked out by hand from src/chunk.rs.
#[test]
fn sentences() {
    use Chunk::{Math, Normal, Verbatim};
    let cases: [(&[Part], &str); 8] = [
        (
            &[(Normal, "the "), (Verbatim, "NASA"), (Normal, " Archive")],
            "The NASA archive",
        ),
        (&[(Normal, ""), (Normal, "Abc")], "abc"),
        (&[(Math, ""), (Normal, "Abc")], "$$abc"),
        (&[(Normal, "\nAbc")], " abc"),
        (&[(Verbatim, "X "), (Normal, "\r\nB")], "X b"),
        (&[(Normal, "a "), (Math, "X"), (Normal, "\nB")], "A $X$b"),
        (&[(Normal, "a "), (Verbatim, ""), (Normal, "\nB")], "A  b"),
        (&[(Normal, "ßİΣ")], "SSi\u{307}σ"),
    ];
    for (parts, want) in cases {
        assert_eq!(sentence(parts), want);
    }
    // More than is lent at first: two bytes become six, and others three.
    let long = "İ".repeat(5_000);
    let want = format!("\u{399}\u{308}\u{301}{}", "i\u{307}".repeat(5_000));
    assert_eq!(sentence(&[(Normal, "ΐ"), (Normal, &long)]), want);
}

/// More than is lent at first.
#[test]
fn long_answers() {
    let long = vec![literal("{a}b", 0); 200];
    let map = HashMap::from([("long", &long)]);
    let chunks = parse_field("t", &vec![name("long", 0); 50], &map).unwrap();
    assert_eq!(chunks.format_verbatim(), "ab".repeat(200 * 50));
}

#[test]
fn too_long_a_source() {
    let source = " ".repeat(16_777_216);
    let error = RawBibliography::parse(&source).unwrap_err();
    assert_eq!((error.kind, error.span), (ParseErrorKind::TooLong, 0..0));
}

/// Spanned values are changed and shown as in the original.
#[test]
fn spanned() {
    let spanned = Spanned::new(1, 2..3);
    assert_eq!(spanned.as_ref().map(|one| one + 1), Spanned::new(2, 2..3));
    assert_eq!(format!("{spanned:?} {spanned:#?}"), "1 1 <2..3>");
    assert!(Spanned::detached(()).is_detached());
    assert!(!Spanned::zero(()).is_detached());
    let mut chunk = Chunk::Verbatim("a_b".into());
    assert_eq!(chunk.to_biblatex_string(false), "a\\_b");
    chunk.get_mut().push('$');
    assert_eq!(chunk.get(), "a_b$");
    assert_eq!(Chunk::Math("a_b".into()).to_biblatex_string(false), "a_b");
}
