// Lists a bibliography: its preamble, its definitions, and every field of every entry, resolved and
// written. Nothing but the `use` line before this file says which library it is compiled over.

use std::collections::HashMap;
use std::fmt::Write;

use biblatex::chunk::{Chunk, Chunks, ChunksExt};
use biblatex::raw::{Field, Pair, ParseError, ParseErrorKind, RawBibliography, RawChunk, Token};
use biblatex::resolve::parse_field;
use biblatex::Spanned;

/// The list, or why the source is refused.
pub fn listed(source: &str) -> Result<String, String> {
    let raw = RawBibliography::parse(source).map_err(|error| shown(&underlined(source, error)))?;
    let abbreviations = definitions(&raw);
    let mut list = format!("preamble {:?}\n", raw.preamble);
    for pair in &raw.abbreviations {
        add_pair(&mut list, pair, &abbreviations);
    }
    for Spanned { v: entry, span } in &raw.entries {
        let (kind, key) = (&entry.kind, &entry.key);
        let places = (span, &kind.span, &key.span);
        writeln!(list, "{} {} {places:?}", kind.v, key.v).expect("strings grow");
        for pair in &entry.fields {
            add_pair(&mut list, pair, &abbreviations);
        }
    }
    Ok(list)
}

/// The value of each name, its last definition's.
fn definitions<'a, 's>(raw: &'a RawBibliography<'s>) -> HashMap<&'s str, &'a Field<'s>> {
    let pairs = raw.abbreviations.iter();
    pairs.map(|pair| (pair.key.v, &pair.value.v)).collect()
}

fn add_pair(list: &mut String, pair: &Pair, abbreviations: &HashMap<&str, &Field>) {
    let (name, value) = (&pair.key, &pair.value);
    writeln!(list, "  {} {:?} {:?}", name.v, name.span, value.span).expect("strings grow");
    for element in &value.v {
        let (kind, text) = match element.v {
            RawChunk::Normal(text) => ("literal", text),
            RawChunk::Abbreviation(text) => ("name", text),
        };
        writeln!(list, "    {kind} {text:?} {:?}", element.span).expect("strings grow");
    }
    let field = name.v.to_ascii_lowercase();
    match parse_field(&field, &value.v, abbreviations) {
        Ok(chunks) => add_chunks(list, &chunks),
        Err(error) => *list += &shown(&error),
    }
}

fn add_chunks(list: &mut String, chunks: &Chunks) {
    for chunk in chunks {
        let kind = match chunk.v {
            Chunk::Normal(_) => "normal",
            Chunk::Verbatim(_) => "verbatim",
            Chunk::Math(_) => "math",
        };
        let alone = chunk.v.to_biblatex_string(false);
        let text = chunk.v.get();
        writeln!(list, "    {kind} {text:?} {alone:?} {:?}", chunk.span).expect("strings grow");
    }
    writeln!(list, "    {:?}", chunks.span()).expect("strings grow");
    writeln!(list, "    {}", chunks.format_verbatim()).expect("strings grow");
    writeln!(list, "    {}", chunks.format_sentence()).expect("strings grow");
    for is_verbatim in [false, true] {
        let written = chunks.to_biblatex_string(is_verbatim);
        writeln!(list, "    {written}").expect("strings grow");
    }
}

/// An error of reading, over at least the whole character where it begins, as an editor underlines it: the
/// original says only where that is.
pub fn underlined(source: &str, error: ParseError) -> ParseError {
    let start = error.span.start;
    let character = source[start..].chars().next();
    let end = start + character.map_or(0, char::len_utf8);
    let span = start..error.span.end.max(end);
    ParseError { span, ..error }
}

fn shown(error: &ParseError) -> String {
    let what = match &error.kind {
        ParseErrorKind::UnexpectedEof => "the end".to_string(),
        ParseErrorKind::Expected(Token::Comma) => "no comma".to_string(),
        ParseErrorKind::UnknownAbbreviation(name) => format!("no definition of {name}"),
        other => format!("{other:?}"),
    };
    format!("    refused: {what}, {:?}\n", error.span)
}

/// Reads a source and formats every field that is resolved; how many bytes came of them.
pub fn formatted(source: &str) -> Result<usize, ParseError> {
    let raw = RawBibliography::parse(source)?;
    let abbreviations = definitions(&raw);
    let fields = raw.entries.iter().flat_map(|entry| &entry.v.fields);
    let chunks = fields.flat_map(|pair| parse_field(pair.key.v, &pair.value.v, &abbreviations));
    Ok(chunks.map(|chunks| chunks.format_verbatim().len()).sum())
}

/// Fields that no source has: their parts stand anywhere, one before the other and over each other, and
/// some definitions have no parts.
pub fn made_by_hand() -> String {
    let literal = |text: &'static str, start: usize| {
        Spanned::new(RawChunk::Normal(text), start..start + text.len())
    };
    let name = |text: &'static str, start: usize| {
        Spanned::new(RawChunk::Abbreviation(text), start..start + text.len())
    };
    let (none, both) = (vec![], vec![name("none", 0), name("none", 5)]);
    let (a, b) = (vec![literal("x{y}", 500)], vec![name("a", 40)]);
    let abbreviations = HashMap::from([("none", &none), ("both", &both), ("a", &a), ("b", &b)]);
    let fields = [
        vec![],
        vec![literal("\\'e{$x$}--", 70)],
        vec![name("both", 0)],
        vec![name("none", 3), literal("", 9), name("both", 1)],
        vec![literal("{x}", 0), name("both", 10), literal("{y}", 20)],
        vec![literal("", 7), name("b", 1_000), literal("z", 3)],
        vec![literal("x", 7), literal("y$", 7), name("b", 7)],
        vec![literal("x}", 99), literal("y", 7)],
        vec![name("may", 5), name("may", 3), name("unknown", 30)],
        vec![name("b", 5), literal("{\\\"o}", 900), name("dec", 3)],
    ];
    let mut list = String::new();
    for field in fields {
        match parse_field("title", &field, &abbreviations) {
            Ok(chunks) => add_chunks(&mut list, &chunks),
            Err(error) => list += &shown(&error),
        }
    }
    list
}
