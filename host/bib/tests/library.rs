//! The wrappers: what they answer, and what they refuse with.

use bib::{Kind, Reason, Refusal, Resolved, Row};

fn row(kind: Kind, detail: u32, start: usize, end: usize) -> Row {
    Row {
        kind,
        detail,
        start,
        end,
    }
}

fn refusal(reason: Reason, start: usize, end: usize) -> Refusal {
    Refusal { reason, start, end }
}

#[test]
fn rows_of_a_file() {
    let rows = bib::read(b"@a{k, t = {x} # y}").unwrap();
    let want = [
        row(Kind::Entry, 0, 0, 17),
        row(Kind::EntryType, 0, 1, 2),
        row(Kind::Key, 0, 3, 4),
        row(Kind::FieldName, 0, 6, 7),
        row(Kind::Value, 0, 10, 17),
        row(Kind::Literal, 0, 11, 12),
        row(Kind::Name, 0, 16, 17),
    ];
    assert!(rows.iter().eq(want));
    assert_eq!((rows.len(), rows.is_empty()), (7, false));
    assert_eq!(rows.numbers()[..8], [1, 0, 0, 17, 2, 0, 1, 2]);
    assert_eq!(rows.iter().last().unwrap().to_string(), "7 0 16 17");
}

#[test]
fn every_kind() {
    let text = b"@preamble{\"x\"}\n@string{d = 1}\n@a{k, t = d # {x}}\n@b{";
    let rows = bib::salvage(text).unwrap();
    let mut seen: Vec<u32> = rows.iter().map(|row| row.kind.number()).collect();
    seen.sort();
    seen.dedup();
    assert_eq!(seen, (0..=10).collect::<Vec<u32>>());
}

#[test]
fn salvaged_files() {
    let rows = bib::salvage(b"@a{\n@b{k,}").unwrap();
    let want = [
        row(Kind::Damage, 0, 0, 4),
        row(Kind::Cause, 7, 4, 4),
        row(Kind::Entry, 0, 4, 9),
        row(Kind::EntryType, 0, 5, 6),
        row(Kind::Key, 0, 7, 8),
    ];
    assert!(rows.iter().eq(want));
}

#[test]
fn packed_rows() {
    let rows = bib::salvage(b"@a{\n@b{k,}").unwrap();
    let bytes = bib::pack(rows.numbers()).unwrap();
    assert_eq!(bytes[..8], [0x90, 0, 0, 0, 0, 0, 4, 0xA7]);
    assert_eq!(bib::unpack(&bytes), Ok(rows));
    assert_eq!(bib::pack(&[]), Ok(vec![]));
    let bad = Err(refusal(Reason::BadRows, 0, 0));
    assert_eq!(bib::pack(&[1, 0, 0]), bad);
    assert_eq!(bib::pack(&[1, 0, 0, 5]), bad);
    assert_eq!(bib::unpack(&bytes[..6]).map(|_| vec![]), bad);
}

/// A text with a chunk of each kind: "a_" and a line end, "_", and a character of two bytes.
const TEXT: &[u8] = "a_\n bé".as_bytes();
const CHUNKS: [u32; 15] = [0, 0, 3, 0, 0, 1, 1, 2, 0, 0, 2, 5, 7, 0, 0];

#[test]
fn written_chunks() {
    assert_eq!(bib::format_verbatim(TEXT, &CHUNKS).unwrap(), "a_ _$é$");
    let written = |verbatim| bib::to_biblatex_string(TEXT, &CHUNKS, verbatim).unwrap();
    assert_eq!(written(false), "{a\\_\n{\\_$é$}}");
    assert_eq!(written(true), "{a_\n{_$é$}}");
    assert_eq!(bib::format_sentence(TEXT, &CHUNKS).unwrap(), "A_ _$é$");
    assert_eq!(bib::format_verbatim(b"", &[]).unwrap(), "");
    assert_eq!(bib::format_sentence(b"", &[]).unwrap(), "");
    assert_eq!(bib::to_biblatex_string(b"", &[], false).unwrap(), "{}");
}

/// Chunks in sentence case, by kind and text.
fn sentence(chunks: &[(u32, &str)]) -> String {
    let (mut text, mut rows) = (String::new(), Vec::new());
    for (kind, part) in chunks {
        let from = text.len() as u32;
        text += part;
        rows.extend([*kind, from, text.len() as u32, 0, 0]);
    }
    bib::format_sentence(text.as_bytes(), &rows).unwrap()
}

/// The first character is raised and the others are lowered, Verbatim and Math are as they are, and each
/// thing that may surprise has its case, worked out by hand from src/chunk.rs.
#[test]
fn sentences() {
    const N: u32 = 0;
    const V: u32 = 1;
    const M: u32 = 2;
    let cases: [(&[(u32, &str)], &str); 22] = [
        (&[(N, "the NASA Archive")], "The nasa archive"),
        (
            &[(N, "the "), (V, "NASA"), (N, " Archive")],
            "The NASA archive",
        ),
        (&[(M, "X"), (N, "Y\r\nZ")], "$X$y z"),
        // The first chunk ends it, whatever it is.
        (&[(V, "nasa"), (N, "Is")], "nasais"),
        (&[(N, ""), (N, "Abc")], "abc"),
        (&[(V, ""), (N, "Abc")], "abc"),
        (&[(M, ""), (N, "Abc")], "$$abc"),
        // A line end is a blank, also where it is the first character, and is none behind white space.
        (&[(N, "\nAbc")], " abc"),
        (&[(N, "\r\n\nAbc")], " abc"),
        (&[(N, "a\u{3000}\nB\u{85}\rC")], "A\u{3000}b\u{85}c"),
        (&[(V, "X "), (N, "\nB")], "X b"),
        (&[(V, "X\n"), (N, "\nB")], "X\nb"),
        // Math leaves the white space before it, and so does an empty Normal chunk; an empty Verbatim does not.
        (&[(N, "a "), (M, "x"), (N, "\nB")], "A $x$b"),
        (&[(N, "a"), (M, "x "), (N, "\nB")], "A$x $ b"),
        (&[(N, "a "), (N, ""), (N, "\nB")], "A b"),
        (&[(N, "a "), (V, ""), (N, "\nB")], "A  b"),
        // Full mappings, without regard to neighbours.
        (&[(N, "ßß")], "SSß"),
        (&[(N, "ŉa")], "ʼNa"),
        (&[(N, "ΐΐ")], "\u{399}\u{308}\u{301}ΐ"),
        (&[(N, "İİ")], "İi\u{307}"),
        (&[(N, "ΟΔΟΣ ΟΣ")], "Οδοσ οσ"),
        (&[(N, "ǆǅ")], "Ǆǆ"),
    ];
    for (chunks, want) in cases {
        assert_eq!(sentence(chunks), want, "{chunks:?}");
    }
}

/// The most bytes that chunks can be written as find their room: each doubled, and marks around
/// each.
#[test]
fn room_enough_to_write() {
    for kind in 0..3 {
        for count in 0..20 {
            let rows = [kind, 0, 4, 0, 0].repeat(count);
            let formatted = bib::format_verbatim(b"\\{}\\", &rows).unwrap();
            assert_eq!(formatted.len(), count * [4, 4, 6][kind as usize]);
            let written = bib::to_biblatex_string(b"\\{}\\", &rows, true).unwrap();
            let each = [8, 8, 6][kind as usize];
            let extra = if kind == 1 && count > 0 { 2 } else { 0 };
            assert_eq!(written.len(), 2 + extra + count * each);
        }
    }
    // Each byte tripled, which only the first character can be, or one more than doubled.
    for count in 0..20 {
        let rows = [0, 0, 2, 0, 0].repeat(count);
        let raised = bib::format_sentence("ΐ".as_bytes(), &rows).unwrap();
        assert_eq!(raised.len(), if count > 0 { 4 + 2 * count } else { 0 });
        let lowered = bib::format_sentence("İ".as_bytes(), &rows).unwrap();
        assert_eq!(lowered.len(), if count > 0 { 3 * count - 1 } else { 0 });
        let rows = [2, 0, 2, 0, 0].repeat(count);
        let formulas = bib::format_sentence("İ".as_bytes(), &rows).unwrap();
        assert_eq!(formulas.len(), 4 * count);
    }
    // Every chunk opens or closes the extra brace.
    let rows = [1, 0, 1, 0, 0, 0, 0, 1, 0, 0].repeat(9);
    let written = bib::to_biblatex_string(b"}", &rows, false).unwrap();
    assert_eq!(written, format!("{{{}}}", "{\\}}\\}".repeat(9)));
}

/// Documents 01's "resolve" cases, at a place of a file.
#[test]
fn resolved_literals() {
    let cases: [(&str, bool, &[(u32, &str, u32, u32)]); 9] = [
        ("a----b", false, &[(0, "a—-b", 0, 6)]),
        ("\\'{\\i}", false, &[(0, "í", 0, 6)]),
        ("\\o{x}", false, &[(0, "x\u{338}", 0, 5)]),
        ("a\\ b", false, &[(0, "a\\  b", 0, 4)]),
        ("{a}", false, &[(0, "", 0, 0), (1, "a", 1, 2)]),
        ("$x", true, &[(0, "$x", 0, 2)]),
        ("", false, &[(0, "", 0, 0)]),
        (
            "x $a b$ y",
            false,
            &[(0, "x ", 0, 2), (2, "a b", 3, 6), (0, " y", 7, 9)],
        ),
        ("\\emph{x}", true, &[(0, "\\emph", 0, 5), (1, "x", 6, 7)]),
    ];
    for (literal, is_verbatim, chunks) in cases {
        let file = format!("é{literal}é");
        let resolved = bib::resolve_literal(file.as_bytes(), 2..2 + literal.len(), is_verbatim);
        let resolved = resolved.unwrap();
        let (mut text, mut rows) = (String::new(), Vec::new());
        for (kind, part, start, end) in chunks {
            let from = text.len() as u32;
            text += part;
            rows.extend([*kind, from, text.len() as u32, start + 2, end + 2]);
        }
        assert_eq!((resolved.text, resolved.rows), (text, rows), "{literal}");
        assert_eq!(resolved.names, 0);
    }
}

#[test]
fn refused_literals() {
    let refused = |file: &[u8], start, end| {
        bib::resolve_literal(file, start..end, false).expect_err("it is refused")
    };
    assert_eq!(refused(b"..$x", 2, 4), refusal(Reason::UnexpectedEof, 4, 4));
    let brace = refusal(Reason::UnexpectedClosingBrace, 3, 4);
    assert_eq!(refused(b"..a}b", 2, 5), brace);
    let deep = "\\a{".repeat(65) + &"}".repeat(65);
    let depth = refusal(Reason::TooDeep, 3 * 64 + 2, 3 * 64 + 3);
    assert_eq!(refused(deep.as_bytes(), 0, deep.len()), depth);
    let bad = refusal(Reason::BadRows, 0, 0);
    let file = "aé漢".as_bytes();
    for (start, end) in [(1, 0), (0, 7), (7, 7), (0, 2), (2, 3), (0, usize::MAX)] {
        assert_eq!(refused(file, start, end), bad);
    }
    assert_eq!(refused(b"a\xff", 0, 9), refusal(Reason::NotUtf8, 1, 1));
    let long = vec![b'a'; bib::MOST_BYTES + 1];
    assert_eq!(refused(&long, 1, 0), refusal(Reason::TooLong, 0, 0));
    assert_eq!(
        refused(&long[..20_000], 1, 1 + 16_385),
        refusal(Reason::TooLong, 1, 16_386)
    );
    assert!(bib::resolve_literal(&long[1..], 1..1 + bib::MOST_LITERAL, false).is_ok());
}

/// What takes the most rows and the most text finds its room, of every length.
#[test]
fn room_enough_to_resolve() {
    for part in ["{}", "$$", "{}a", "--", "\\ ", "\\x", "-- "] {
        for count in (0..50).chain([bib::MOST_LITERAL / part.len()]) {
            let literal = part.repeat(count);
            let resolved = bib::resolve_literal(literal.as_bytes(), 0..literal.len(), false);
            assert!(resolved.is_ok(), "{part} {count}");
        }
    }
}

/// The first field of a file, by its rows.
fn field(file: &str, is_verbatim: bool, months: &[(&str, &str)]) -> Result<Resolved, Refusal> {
    let rows = bib::read(file.as_bytes()).unwrap();
    let fields = rows.iter().position(|row| row.kind == Kind::FieldName);
    let value = fields.expect("a field") + 1;
    bib::resolve_field(file.as_bytes(), rows.numbers(), value, is_verbatim, months)
}

#[test]
fn resolved_fields() {
    let months = [("may", "May"), ("may", "Mai"), ("a", "A")];
    let both = |file, is_verbatim, text: &str, rows: &[u32], names| {
        let resolved = field(file, is_verbatim, &months).unwrap();
        assert_eq!((&resolved.text[..], &resolved.rows[..]), (text, rows));
        assert_eq!(resolved.names, names);
    };
    let file = "@b{k,t=a#{y}}@string{a={x}}";
    both(file, false, "xy", &[0, 0, 2, 24, 11], 1);
    both("@b{k,t=a#may}", false, "AMay", &[0, 0, 4, 7, 12], 2);
    both("@b{k,t={--}}", true, "--", &[0, 0, 2, 8, 10], 0);
    // More than is lent at first: 4,095 names, each with text or with two names.
    let mut file = format!("@b{{k,t=d11}}@string{{d0={{{}}}}}", "{x}y".repeat(100));
    for i in 1..12 {
        file += &format!("@string{{d{i}=d{0}#d{0}}}", i - 1);
    }
    let resolved = field(&file, false, &[]).unwrap();
    assert_eq!(resolved.names, 4_095);
    assert_eq!(resolved.text, "xy".repeat(100 * 2_048));
}

#[test]
fn refused_fields() {
    let refused = |file, reason, start, end| {
        assert_eq!(field(file, false, &[]), Err(refusal(reason, start, end)));
    };
    refused("@b{k,t=may}", Reason::UnknownAbbreviation, 7, 10);
    refused("@b{k,t=a}@string{a=a}", Reason::Cyclic, 19, 20);
    refused("@b{k,t={$}#a}", Reason::UnexpectedEof, 9, 9);
    let many = format!("@b{{k,t={}a}}@string{{a={{}}}}", "a#".repeat(4_096));
    refused(&many, Reason::TooManyNames, 7 + 2 * 4_096, 8 + 2 * 4_096);
    let links = (0..32).map(|i| format!("@string{{a{i}=a{}}}", i + 1));
    let deep = links.collect::<String>() + "@string{a32={x}}@b{k,t=a0}";
    let used = deep.find("a32}").expect("it is used");
    refused(&deep, Reason::TooDeep, used, used + 3);
    let bad = Err(refusal(Reason::BadRows, 0, 0));
    assert_eq!(bib::resolve_field(b"", &[], 0, false, &[]), bad);
    assert_eq!(bib::resolve_field(b"x", &[0, 0, 0, 1], 0, false, &[]), bad);
}

/// Every value of a file is in the answer over the whole file as it is alone.
#[test]
fn resolved_files() {
    let months = [("may", "May")];
    let mut file = "@b{k,t=a#{\\'e},url={\\'e},m=may,n=no,o={$}}@string{a={{x}}}".to_string();
    // More than is lent at first.
    file += &format!("@string{{d0={{{}}}}}", "{x}y".repeat(100));
    for i in 1..12 {
        file += &format!("@string{{d{i}=d{0}#d{0}}}", i - 1);
    }
    let rows = bib::read(file.as_bytes()).unwrap();
    let kinds = rows.iter().enumerate();
    let values = kinds.filter(|(_, row)| row.kind == Kind::Value);
    let values: Vec<usize> = values.map(|(which, _)| which).collect();
    let flags: Vec<bool> = (0..values.len()).map(|value| value % 2 == 1).collect();
    let resolved = bib::resolve_file(file.as_bytes(), rows.numbers(), &flags, &months).unwrap();
    assert_eq!((resolved.len(), resolved.is_empty()), (values.len(), false));
    for (number, value) in resolved.iter().enumerate() {
        let (which, flag) = (values[number], flags[number]);
        let alone = bib::resolve_field(file.as_bytes(), rows.numbers(), which, flag, &months);
        let value = value.map(|value| Resolved {
            text: value.text.into(),
            rows: value.rows.into(),
            names: value.names,
        });
        assert_eq!(value, alone);
    }
    assert_eq!(resolved.get(0).unwrap().unwrap().text, "xé");
    assert_eq!(resolved.get(values.len()), None);
}

#[test]
fn refused_files() {
    let file = b"@b{k,t=a,u={x}}";
    let rows = bib::read(file).unwrap();
    let refused = |file: &[u8], rows: &[u32], flags: &[bool], want: Refusal| {
        assert_eq!(bib::resolve_file(file, rows, flags, &[]), Err(want));
    };
    let bad = refusal(Reason::BadRows, 0, 0);
    refused(file, rows.numbers(), &[false], bad);
    refused(file, &rows.numbers()[1..], &[false; 2], bad);
    refused(b"\xff", &[], &[], refusal(Reason::NotUtf8, 0, 0));
    let long = vec![b' '; bib::MOST_BYTES + 1];
    refused(&long, &[], &[], refusal(Reason::TooLong, 0, 0));
    assert!(bib::resolve_file(b"", &[], &[], &[]).unwrap().is_empty());
    // More flags than values are no harm.
    let resolved = bib::resolve_file(file, rows.numbers(), &[true; 3], &[]).unwrap();
    let unknown = refusal(Reason::UnknownAbbreviation, 7, 8);
    assert_eq!(resolved.get(0), Some(Err(unknown)));
    assert_eq!(resolved.get(1).unwrap().unwrap().rows, [0, 0, 1, 12, 13]);
}

#[test]
fn refused_chunks() {
    let refused = |text: &[u8], rows: &[u32], want: Refusal| {
        assert_eq!(bib::format_verbatim(text, rows), Err(want));
        assert_eq!(bib::format_sentence(text, rows), Err(want));
        assert_eq!(bib::to_biblatex_string(text, rows, false), Err(want));
        assert_eq!(bib::to_biblatex_string(text, rows, true), Err(want));
    };
    refused(b"a\xff", &[9], refusal(Reason::NotUtf8, 1, 1));
    let bad = refusal(Reason::BadRows, 0, 0);
    refused(TEXT, &CHUNKS[..14], bad);
    for (kind, start, end) in [
        (3, 0, 1),
        (0, 2, 1),
        (0, 0, 8),
        (1, 8, 8),
        (2, 6, 7),
        (0, 5, 6),
    ] {
        refused(TEXT, &[kind, start, end, 0, 0], bad);
    }
    refused(TEXT, &[0, 0, u32::MAX, 0, 0], bad);
    refused(TEXT, &[0, u32::MAX, u32::MAX, 0, 0], bad);
}

#[test]
fn refusals() {
    let refused = |file: &[u8]| bib::read(file).unwrap_err();
    assert_eq!(refused(b"a\xff"), refusal(Reason::NotUtf8, 1, 1));
    assert_eq!(refused(b"@a{k,t=}"), refusal(Reason::UnexpectedEof, 7, 8));
    assert_eq!(refused(b"@a{k}"), refusal(Reason::ExpectedComma, 4, 5));
    let wide = refused("@a{k 漢,}".as_bytes());
    assert_eq!(wide, refusal(Reason::ExpectedComma, 5, 8));
    // The file ends there.
    assert_eq!(refused(b"@a{k,y=12"), refusal(Reason::UnexpectedEof, 9, 9));
    let long = vec![b' '; bib::MOST_BYTES + 1];
    assert_eq!(refused(&long), refusal(Reason::TooLong, 0, 0));
    assert_eq!(bib::salvage(&long), Err(refusal(Reason::TooLong, 0, 0)));
    assert!(bib::read(&long[1..]).unwrap().is_empty());
}

#[test]
fn refusals_as_sentences() {
    let sentences = [
        (2, "bytes that are not UTF-8 at byte 5 (refusal 2)"),
        (
            3,
            "a value is missing or the text ends too early at byte 5 (refusal 3)",
        ),
        (4, "expected an identifier at byte 5 (refusal 4)"),
        (5, "expected an opening brace at byte 5 (refusal 5)"),
        (6, "expected a closing brace at byte 5 (refusal 6)"),
        (7, "expected a comma at byte 5 (refusal 7)"),
        (8, "expected a quotation mark at byte 5 (refusal 8)"),
        (9, "expected an equals sign at byte 5 (refusal 9)"),
        (10, "unexpected decimal point at byte 5 (refusal 10)"),
        (11, "unexpected closing brace at byte 5 (refusal 11)"),
        (12, "a name without a definition at byte 5 (refusal 12)"),
        (
            13,
            "a name that is used in its own definition at byte 5 (refusal 13)",
        ),
        (
            14,
            "too many names or arguments of commands inside each other at byte 5 (refusal 14)",
        ),
        (
            15,
            "more than 4,096 names in one field at byte 5 (refusal 15)",
        ),
        (16, "there is not enough room for the answer (refusal 16)"),
        (17, "these are not well-formed rows (refusal 17)"),
    ];
    for (number, sentence) in sentences {
        let reason = Reason::of(number).unwrap();
        assert_eq!(reason.number(), number);
        assert_eq!(refusal(reason, 5, 5).to_string(), sentence);
    }
    // Of a file there is no place; a literal has its own.
    assert_eq!(
        refusal(Reason::TooLong, 0, 0).to_string(),
        "the file is longer than 16,777,215 bytes (refusal 1)"
    );
    assert_eq!(
        refusal(Reason::TooLong, 5, 16_390).to_string(),
        "a literal is longer than 16,384 bytes at byte 5 (refusal 1)"
    );
    let without = (0..100).filter(|number| Reason::of(*number).is_none());
    assert!(without.eq([0].into_iter().chain(18..100)));
}

/// The most rows that so many bytes can have find their room, of every length.
#[test]
fn room_enough() {
    for length in 0..200 {
        let pieces: Vec<u8> = b"@\n".iter().copied().cycle().take(length).collect();
        let rows = bib::salvage(&pieces).unwrap();
        assert_eq!(rows.len(), length + length % 2);
        let fields: Vec<u8> = b"@a{k,"
            .iter()
            .chain(b"a=b,".iter().cycle().take(length * 4))
            .chain(b"}")
            .copied()
            .collect();
        assert_eq!(bib::read(&fields).unwrap().len(), 3 + length * 3);
    }
}

/// The header has the version of the crates.
#[test]
fn version_of_the_header() {
    let header = include_str!("../../../include/bib.h");
    let version = env!("CARGO_PKG_VERSION");
    assert!(header.contains(&format!("#define BIB_VERSION \"{version}\"\n")));
    for (name, part) in ["MAJOR", "MINOR", "PATCH"].iter().zip(version.split('.')) {
        assert!(header.contains(&format!("#define BIB_VERSION_{name} {part}\n")));
    }
}
