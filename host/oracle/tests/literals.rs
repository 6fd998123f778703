//! 01's "resolve" cases, and the refusals that are written from 01.

use oracle::{resolve_literal, Refusal, LEAST_SCRATCH, LONGEST_FILE, LONGEST_LITERAL};

/// Kind, text and span of each chunk.
type Rows<'a> = &'a [(u32, &'a str, u32, u32)];

fn resolved(literal: &str, is_verbatim: bool, expected: Rows) {
    // At a place of its own in a file, with what could mislead before and behind it.
    let file = format!("\\{{{literal}}}e");
    let span = (2, 2 + literal.len());
    let found = resolve_literal(file.as_bytes(), span, is_verbatim, LEAST_SCRATCH);
    let found = found.expect("the Rust takes it");
    let (mut text, mut rows) = (String::new(), Vec::new());
    for (kind, part, start, end) in expected {
        let from = text.len() as u32;
        text += part;
        rows.extend([*kind, from, text.len() as u32, start + 2, end + 2]);
    }
    assert_eq!(found.rows, rows, "{literal}");
    assert_eq!(String::from_utf8(found.text), Ok(text), "{literal}");
}

fn refused(file: &[u8], span: (usize, usize), scratch: usize, expected: (u32, u32, u32)) {
    let (number, start, end) = expected;
    let refusal = Refusal { number, start, end };
    assert_eq!(resolve_literal(file, span, false, scratch), Err(refusal));
}

#[test]
fn edge_table() {
    resolved("a----b", false, &[(0, "a—-b", 0, 6)]);
    resolved("\\'{\\i}", false, &[(0, "í", 0, 6)]);
    resolved("\\o{x}", false, &[(0, "x\u{338}", 0, 5)]);
    resolved("a\\ b", false, &[(0, "a\\  b", 0, 4)]);
    resolved("{a}", false, &[(0, "", 0, 0), (1, "a", 1, 2)]);
    refused(b"$x", (0, 2), LEAST_SCRATCH, (3, 2, 2));
    resolved("$x", true, &[(0, "$x", 0, 2)]);
}

/// Composition is there, whichever it is.
#[test]
fn composition() {
    resolved("\\~{n}\\.I\\c c", false, &[(0, "ñİç", 0, 12)]);
    // The pairs of Unicode go one way round only.
    resolved(
        "\\^{\u{1EA1}}\\d{\u{E2}}",
        false,
        &[(0, "\u{1EAD}\u{E2}\u{323}", 0, 13)],
    );
}

#[test]
fn added_refusals() {
    let enough = LEAST_SCRATCH;
    let long = vec![b'a'; LONGEST_FILE + 1];
    refused(&long, (2, 1), 0, (1, 0, 0));
    refused(b"a\xFF}", (2, 1), 0, (2, 1, 1));
    for span in [(1, 0), (0, 4), (4, 4), (0, 2), (2, 3), (0, usize::MAX)] {
        refused("aé".as_bytes(), span, 0, (17, 0, 0));
        refused("aé".as_bytes(), span, enough, (17, 0, 0));
    }
    refused(b"}", (0, 1), enough - 1, (16, 0, 0));
    refused(b"}", (0, 1), enough, (11, 0, 1));
    let far = LONGEST_LITERAL + 8;
    refused(&long[1..], (7, far), enough, (1, 7, far as u32));
    refused(&long[1..], (7, far), 0, (16, 0, 0));
    let longest = resolve_literal(&long[1..], (7, far - 1), false, enough);
    assert_eq!(longest.map(|found| found.text.len()), Ok(LONGEST_LITERAL));
}
