//! The places of preambles, found another way, by the Rust's parser alone, and compared with those
//! that the oracle gives.
//!
//! A prefix of an accepted file is accepted exactly if it ends between two items: a parser that has
//! met the end inside an item stays at the end, and cannot eat the closing delimiter any more. So
//! the shortest accepted prefix in which the joined string has grown ends with a preamble's closing
//! delimiter, one byte, and before it come white space and the text by which the string grew.

use oracle::raw::RawBibliography;
use oracle::{read, Kind};

const JOINT: usize = " # ".len();

/// The preambles' places by prefixes.
fn by_prefixes(text: &str) -> Vec<(u32, u32)> {
    let mut found = Vec::new();
    let mut known = 0;
    for cut in (0..=text.len()).filter(|&cut| text.is_char_boundary(cut)) {
        let Ok(prefix) = RawBibliography::parse(&text[..cut]) else {
            continue;
        };
        let joined = prefix.preamble.len();
        if joined == known {
            continue;
        }
        let length = joined - known - if known == 0 { 0 } else { JOINT };
        let end = text[..cut - 1].trim_end().len();
        found.push(((end - length) as u32, end as u32));
        known = joined;
    }
    found
}

fn compare(file: &[u8]) -> bool {
    let Ok(rows) = read(file) else {
        return false;
    };
    let text = std::str::from_utf8(file).expect("an accepted file is UTF-8");
    let given: Vec<(u32, u32)> = rows
        .iter()
        .filter(|row| row.kind == Kind::Preamble as u32)
        .map(|row| (row.start, row.end))
        .collect();
    assert_eq!(given, by_prefixes(text), "{text:?}");
    assert!(
        rows.windows(2).all(|w| w[0].start <= w[1].start),
        "{text:?}"
    );
    !given.is_empty()
}

/// All sequences of at most `left` of the parts, after what is there.
fn all(file: &mut Vec<u8>, parts: &[&[u8]], left: usize, met: &mut usize) {
    *met += usize::from(compare(file));
    if left == 0 {
        return;
    }
    for part in parts {
        let length = file.len();
        file.extend_from_slice(part);
        all(file, parts, left - 1, met);
        file.truncate(length);
    }
}

#[test]
fn items_in_every_order() {
    let parts: [&[u8]; 14] = [
        b"@preamble{\"x\"}",
        b"@Preamble \"\n\"\\\"\xC3\xA9\" \"",
        b"@preamble{\"\"\"",
        b"@PREAMBLE{\" # \"\xE3\x80\x80}",
        b"@a{k,t=\"@preamble{\" # {\"x\"}}",
        b"@string{}",
        b"@string{a=1,%@preamble{\"x\"}\n}",
        b"@string{a={}, b = a %,}\n , }",
        b"@comment{\"@preamble{\"x\"}",
        b"@comment\"}",
        b"%",
        b"\n",
        b"x",
        b"}",
    ];
    let mut met = 0;
    all(&mut Vec::new(), &parts, 4, &mut met);
    assert!(met > 10_000, "only {met} files had a preamble");
}

#[test]
fn every_short_tail() {
    let parts: [&[u8]; 9] = [
        b"\"",
        b"}",
        b"\\",
        b"#",
        b" ",
        b"x",
        b"%",
        b"\n",
        b"\xC3\xA9",
    ];
    let mut met = 0;
    for head in [
        "@preamble{",
        "@preamble{\"x\"} @preamble{",
        "@preamble{\"\" @preamble{\"",
    ] {
        all(&mut head.as_bytes().to_vec(), &parts, 5, &mut met);
    }
    assert!(met > 1_000, "only {met} files had a preamble");
}
