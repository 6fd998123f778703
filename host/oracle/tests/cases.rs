//! 01's edge table for files with the places of 02, and the cases that strict reading must hold to.

use oracle::{read, Refusal, Row, LONGEST_FILE};

fn accepted(file: &[u8], expected: &[(u32, u32, u32)]) {
    let rows: Vec<Row> = expected
        .iter()
        .map(|&(kind, start, end)| Row {
            kind,
            detail: 0,
            start,
            end,
        })
        .collect();
    assert_eq!(
        read(file),
        Ok(rows),
        "{:?}",
        file.escape_ascii().to_string()
    );
}

fn refused(file: &[u8], number: u32, start: u32, end: u32) {
    let refusal = Refusal { number, start, end };
    assert_eq!(
        read(file),
        Err(refusal),
        "{:?}",
        file.escape_ascii().to_string()
    );
}

#[test]
fn edge_table() {
    accepted(b"", &[]);
    accepted(b"@a{k,}", &[(1, 0, 5), (2, 1, 2), (3, 3, 4)]);
    refused(b"@a{k}", 7, 4, 5);
    refused(b"@a{k,t=}", 3, 7, 8);
    refused(b"@a{k,y=1.2.3}", 10, 10, 11);
    refused(b"@a{k,y=12", 3, 9, 9);
    accepted(
        b"@a{k,t={x\\}y} }",
        &[
            (1, 0, 14),
            (2, 1, 2),
            (3, 3, 4),
            (4, 5, 6),
            (5, 7, 14),
            (6, 8, 12),
        ],
    );
    accepted(b"@preamble{\"x\"\"", &[(0, 10, 13)]);
}

#[test]
fn salvage_case_read_strictly() {
    accepted(b"@a{\n@b{k,}", &[(1, 0, 9), (2, 1, 2), (3, 4, 8)]);
}

#[test]
fn must_hold() {
    refused(b"@a{k,t={x},%c", 3, 13, 13);
    refused(b"@a{k,t={x},%c\n", 4, 14, 14);
    accepted(b"@a\"k,}", &[(1, 0, 5), (2, 1, 2), (3, 3, 4)]);
    accepted(b"50% @a{k,}", &[]);
    refused(b"a@b.c", 5, 5, 5);
    refused(b"\xE2\x82\x40\x61\x7B", 2, 0, 0);
}

#[test]
fn every_number() {
    refused(&vec![b' '; LONGEST_FILE + 1], 1, 0, 0);
    accepted(&vec![b' '; LONGEST_FILE], &[]);
    refused(b"@a{k,t={}\xFF", 2, 9, 9);
    refused(b"@a{k,t={", 3, 8, 8);
    refused(b"@ a", 4, 1, 2);
    refused(b"@a k", 5, 3, 4);
    refused(b"@comment{x", 6, 10, 10);
    refused(b"@a{k t", 7, 5, 6);
    refused(b"@preamble{x", 8, 10, 11);
    refused(b"@a{k,t{x}}", 9, 6, 7);
    refused(b"@a{k,t=1..", 10, 9, 10);
}

/// Culprits of two, three and four bytes, in the middle of the file and at its end. Only those of two
/// bytes can be the cause of 3, and none of four that of 4: all others begin a name.
#[test]
fn culprits() {
    for (c, width) in [('é', 2), ('漢', 3), ('😀', 4)] {
        for (before, number) in [
            ("@a ", 5),
            ("@preamble{\"x\" ", 6),
            ("@a{k ", 7),
            ("@a{k,t={x}", 7),
            ("@preamble{", 8),
            ("@a{k,t ", 9),
        ] {
            let place = before.len() as u32;
            refused(before.as_bytes(), number, place, place);
            for behind in ["", ",}", "é"] {
                let file = format!("{before}{c}{behind}");
                refused(file.as_bytes(), number, place, place + width);
            }
        }
    }
    refused("@a{k,t=\u{86}}".as_bytes(), 3, 7, 9);
    refused("@a{k,\u{9f}".as_bytes(), 4, 5, 7);
    refused("@\u{a0}".as_bytes(), 4, 1, 3);
    refused("@\u{3000}a".as_bytes(), 4, 1, 4);
    // What is not UTF-8 has an empty place still.
    refused(b"@a{k \xC3", 2, 5, 5);
}

#[test]
fn file_order() {
    // Preamble, entry, definitions, entry, preamble: the Rust keeps the three kinds apart.
    accepted(
        b"@preamble{\"p\"} @a{k,} @STRING{x=1 , y=x#\"z\"} @b{l,} @Preamble{ \"\\\" # \" }",
        &[
            (0, 10, 13),
            (1, 15, 20),
            (2, 16, 17),
            (3, 18, 19),
            (8, 30, 31),
            (5, 32, 34),
            (6, 32, 33),
            (8, 36, 37),
            (5, 38, 43),
            (7, 38, 39),
            (6, 41, 42),
            (1, 45, 50),
            (2, 46, 47),
            (3, 48, 49),
            (0, 63, 70),
        ],
    );
}

#[test]
fn preambles_hide_nowhere_else() {
    // The same words in a comment, in `@comment`, in a value and after a percent sign.
    accepted(
        b"% @preamble{\"x\"}\n@comment{@preamble{\"x\"}@preamble{\"x\"}",
        &[(0, 50, 53)],
    );
    accepted(
        b"@string{a={@preamble{\"x\"}}, %@preamble{\"x\"}\n}@preamble{\"x\"}",
        &[(8, 8, 9), (5, 10, 26), (6, 11, 25), (0, 55, 58)],
    );
    accepted(b"@string{}@preamble{\"x\"}", &[(0, 19, 22)]);
}

#[test]
fn white_space_in_value_spans() {
    accepted(
        b"@a{k,t=x \n}",
        &[
            (1, 0, 10),
            (2, 1, 2),
            (3, 3, 4),
            (4, 5, 6),
            (5, 7, 10),
            (7, 7, 8),
        ],
    );
}
