//! The longest text that values can have, since the numbers of a chunk row and of an answer row have 32 bits.

use proved::{File, Filed, Lent, LentForFile, Resolved, LEAST_SCRATCH, MOST_LITERAL};

const MOST_TEXT: usize = 4_294_967_295;
const NO_ROOM: u32 = 16;

/// The bytes of the text of a name, of which a field may use 4,096.
const NAME: usize = 1 << 20;

/// Literals that have so many bytes together.
fn literals(bytes: usize) -> String {
    let braced = |length| format!("{{{}}}", "x".repeat(length));
    let mut parts = vec![braced(MOST_LITERAL); bytes / MOST_LITERAL];
    parts.push(braced(bytes % MOST_LITERAL));
    parts.join("#")
}

/// A file with a name and a field, whose text has so many bytes; and its rows.
fn file(bytes: usize) -> (String, Vec<u32>) {
    let names = vec!["d"; bytes / NAME].join("#");
    let rest = literals(bytes % NAME);
    let file = format!("@string{{d={}}}@a{{k,t={names}#{rest}}}", literals(NAME));
    let mut rows = vec![0; 4 * 10_000];
    let answer = proved::read(file.as_bytes(), &mut rows);
    assert_eq!(answer.number, 0);
    rows.truncate(4 * answer.count as usize);
    (file, rows)
}

fn of_field(bytes: usize, text: &mut [u8]) -> Resolved {
    let (file, rows) = file(bytes);
    let which = rows.chunks_exact(4).rposition(|row| row[0] == 5);
    let file = File {
        bytes: file.as_bytes(),
        rows: &rows,
        months: &[],
        words: &[],
    };
    let mut lent = Lent {
        scratch: &mut vec![0; LEAST_SCRATCH],
        chunks: &mut [0; 10],
        text,
    };
    proved::resolve_field(file, which.expect("a value"), 0, &mut lent)
}

fn of_file(bytes: usize, text: &mut [u8]) -> Filed {
    let (file, rows) = file(bytes);
    let file = File {
        bytes: file.as_bytes(),
        rows: &rows,
        months: &[],
        words: &[],
    };
    let mut lent = LentForFile {
        scratch: &mut vec![0; LEAST_SCRATCH],
        heads: &mut vec![0; rows.len() / 8],
        next: &mut vec![0; rows.len() / 4],
        answers: &mut [0; 12],
        chunks: &mut [0; 10],
        text,
    };
    proved::resolve_file(file, &[0; 2], &mut lent)
}

#[test]
#[ignore = "takes 4.3 GB of memory and a minute"]
fn longest_text() {
    let mut text = vec![0; MOST_TEXT + 2];
    assert_eq!(of_field(MOST_TEXT + 1, &mut text).number, NO_ROOM);
    assert_eq!(of_field(MOST_TEXT, &mut text[1..MOST_TEXT]).number, NO_ROOM);
    assert_eq!(of_file(MOST_TEXT - NAME + 1, &mut text).number, NO_ROOM);
    assert_eq!((text[1], text[MOST_TEXT]), (0, 0));

    let answer = of_field(MOST_TEXT, &mut text[1..=MOST_TEXT]);
    assert_eq!(
        (answer.number, answer.count, answer.bytes),
        (0, 1, MOST_TEXT as u64)
    );
    let answer = of_file(MOST_TEXT - NAME, &mut text[1..=MOST_TEXT]);
    assert_eq!(
        (answer.number, answer.count, answer.bytes),
        (0, 2, MOST_TEXT as u64)
    );
    let ends = [text[0], text[1], text[MOST_TEXT], text[MOST_TEXT + 1]];
    assert_eq!(ends, [0, b'x', b'x', 0]);
}
