//! Where strict reading and salvage refuse: the whole of the character that is wrong, and nothing at the end of what
//! is read. Every case is worked out by hand from documents 01 and 02.

use proved::{read, salvage, Answer};

/// The first and the last characters of one to four bytes.
#[rustfmt::skip]
const BORDERS: [(char, u64); 8] = [
    ('\0', 1), ('\u{7f}', 1), ('\u{80}', 2), ('\u{7ff}', 2),
    ('\u{800}', 3), ('\u{ffff}', 3), ('\u{10000}', 4), ('\u{10ffff}', 4),
];

/// That a file is refused so, and that nothing is written.
#[track_caller]
fn refused(file: &str, number: u32, start: u64, end: u64) {
    // Behind the file stands what a reader that looks too far would take for its culprit.
    let longer = format!("{file}\u{e9}}}");
    let mut rows = [7; 40];
    let answer = read(&longer.as_bytes()[..file.len()], &mut rows);
    assert_eq!(answer, Answer::refused(number, start, end), "{file:?}");
    assert_eq!(rows, [7; 40], "{file:?}");
}

/// 01's edge table, as 02 changes it.
#[test]
fn edge_table() {
    refused("@a{k}", 7, 4, 5);
    refused("@a{k,t=}", 3, 7, 8);
    refused("@a{k,y=1.2.3}", 10, 10, 11);
    refused("@a{k,y=12", 3, 9, 9);
}

/// Each number from 3 to 10, over characters of every length that can be refused so, and at the end.
#[test]
fn numbers() {
    for (c, width) in [(",", 1), ("\u{80}", 2), ("\u{9f}", 2), ("", 0)] {
        refused(&format!("@a{{k,t={c}"), 3, 7, 7 + width);
    }
    for (c, width) in [("\n", 1), ("\u{85}", 2), ("\u{3000}", 3), ("", 0)] {
        refused(&format!("@{c}"), 4, 1, 1 + width);
    }
    let places = [
        ("@a ", 5),
        ("@preamble{\"\"", 6),
        ("@a{k ", 7),
        ("@preamble{", 8),
        ("@a{k,t ", 9),
    ];
    for (before, number) in places {
        let at = before.len() as u64;
        for (c, width) in BORDERS {
            refused(&format!("{before}{c}"), number, at, at + width);
            refused(&format!("{before}{c}{c}"), number, at, at + width);
        }
        refused(before, number, at, at);
    }
    refused("@a{k,t=1..", 10, 9, 10);
    refused("@comment{", 6, 9, 9);
}

/// Bytes that are not UTF-8 are refused at an empty place, also where a character is refused before them.
#[test]
fn not_utf8() {
    for file in [b"@a{k}\xC3".as_slice(), b"@a{k}\xF0\x9F\x98"] {
        assert_eq!(read(file, &mut []), Answer::refused(2, 5, 5));
    }
}

/// The rows of a salvaged file, four numbers each.
fn rows(file: &str) -> Vec<[u32; 4]> {
    let mut rows = [0; 80];
    let answer = salvage(file.as_bytes(), &mut rows);
    assert_eq!(answer.number, 0);
    let rows = rows.chunks_exact(4).take(answer.count as usize);
    rows.map(|row| [row[0], row[1], row[2], row[3]]).collect()
}

/// Causes: a piece's end is an end, though the file goes on; and a character is refused in its piece alone.
#[test]
fn causes() {
    let entry = [[1, 0, 4, 9], [2, 0, 5, 6], [3, 0, 7, 8]];
    assert_eq!(rows("@a{\n@b{k,}")[..2], [[9, 0, 0, 4], [10, 7, 4, 4]]);
    assert_eq!(rows("@a{\n@b{k,}")[2..], entry);
    assert_eq!(
        rows("@\n\u{3000}\n@a{k \u{3000}\n@")[2..4],
        [[9, 0, 6, 15], [10, 7, 15, 15]]
    );
    let file = "x\n@a{k \u{e9}\n@b \u{6f22}\n@c{k,t\u{1f600} {x}}\n@d{k \u{1f600}";
    let causes: Vec<_> = rows(file).into_iter().filter(|row| row[0] == 10).collect();
    assert_eq!(
        causes,
        [
            [10, 7, 7, 9],
            [10, 5, 13, 16],
            [10, 9, 28, 29],
            [10, 7, 38, 42]
        ]
    );
}
