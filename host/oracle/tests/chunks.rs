//! Chunk rows and what the Rust writes for them; and 01's refusals, which the Rust has not.

use oracle::chunk::Chunk;
use oracle::{chunks, ChunksExt, Refusal};

/// Characters of one, two, three and four bytes: they begin at 0, 1, 3 and 6, and the text ends at
/// 10.
const TEXT: &str = "aé漢😀";

fn refused(text: &[u8], rows: &[u32], number: u32, place: u32) {
    let refusal = Refusal {
        number,
        start: place,
        end: place,
    };
    assert_eq!(chunks(text, rows), Err(refusal), "{rows:?}");
}

#[test]
fn rows_are_chunks() {
    let rows = [
        0, 0, 3, 7, 9, 1, 3, 6, 9, 9, 2, 6, 10, 0, 0, 0, 10, 10, 1, 0,
    ];
    let found = chunks(TEXT.as_bytes(), &rows).unwrap();
    let texts: Vec<&Chunk> = found.iter().map(|chunk| &chunk.v).collect();
    let normal = |text: &str| Chunk::Normal(text.into());
    let (verbatim, math) = (Chunk::Verbatim("漢".into()), Chunk::Math("😀".into()));
    assert_eq!(texts, [&normal("aé"), &verbatim, &math, &normal("")]);
    assert_eq!(found[0].span, 7..9);
    assert_eq!(found.format_verbatim(), "aé漢$😀$");
    assert_eq!(found.format_sentence(), "Aé漢$😀$");
    assert_eq!(found.to_biblatex_string(false), "{aé{漢$😀$}}");
    assert_eq!(chunks(b"", &[]), Ok(vec![]));
}

#[test]
fn refusals_of_rows() {
    let text = TEXT.as_bytes();
    for numbers in [1, 2, 3, 4, 6, 7, 8, 9] {
        refused(text, &[0; 10][..numbers], 17, 0);
    }
    for kind in [3, 4, 256, 1 << 16, 1 << 31, u32::MAX] {
        refused(text, &[kind, 0, 1, 0, 0], 17, 0);
    }
    let ranges = [(1, 0), (0, 11), (11, 11), (0, 2), (2, 3), (4, 6), (6, 9)];
    for (start, end) in ranges.into_iter().chain([(0, u32::MAX), (u32::MAX, 0)]) {
        refused(text, &[0, start, end, 0, 0], 17, 0);
        refused(text, &[0, 0, 1, 0, 0, 1, start, end, 0, 0], 17, 0);
    }
    // No number of the span is looked at.
    assert!(chunks(text, &[0, 0, 1, 5, 4]).is_ok());
}

#[test]
fn refusals_of_text() {
    for (text, place) in [(&b"\xFF"[..], 0), (b"ab\xC3", 2), (b"a\xE2\x82b\xFF", 1)] {
        refused(text, &[0, 0, 1, 0, 0], 2, place);
        // Also where the rows are bad.
        refused(text, &[9], 2, place);
    }
}
