//! 01's salvage case, and what the document says of boundaries and pieces; and what 02 says of the
//! places of causes.

use oracle::{read, salvage, Row, LONGEST_FILE};

/// Kind, detail, start, end.
type Numbers = (u32, u32, u32, u32);

fn gives(file: &[u8], expected: &[Numbers]) {
    let rows: Vec<Row> = expected
        .iter()
        .map(|&(kind, detail, start, end)| Row {
            kind,
            detail,
            start,
            end,
        })
        .collect();
    let said = file.escape_ascii().to_string();
    assert_eq!(salvage(file), Ok(rows), "{said:?}");
}

#[test]
fn the_edge_table() {
    let entry = [(1, 0, 4, 9), (2, 0, 5, 6), (3, 0, 7, 8)];
    gives(
        b"@a{\n@b{k,}",
        &[&[(9, 0, 0, 4), (10, 7, 4, 4)], &entry[..]].concat(),
    );
}

#[test]
fn pieces() {
    gives(b"", &[]);
    gives(b"no item\n", &[]);
    // What stands before the first boundary is a piece of its own, and byte 0 is a boundary.
    gives(
        b"a@\n@",
        &[(9, 0, 0, 3), (10, 4, 2, 3), (9, 0, 3, 4), (10, 4, 4, 4)],
    );
    gives(b"\n@\n", &[(9, 0, 1, 3), (10, 4, 2, 3)]);
    // Neither a carriage return nor a blank makes a boundary.
    gives(b"@\r@", &[(9, 0, 0, 3), (10, 4, 1, 2)]);
    gives(b"@\n @", &[(9, 0, 0, 4), (10, 4, 1, 2)]);
}

#[test]
fn refused_pieces() {
    // The entry before the fault is of the refused piece, and is not given.
    gives(b"@a{k,} @a{k}", &[(9, 0, 0, 12), (10, 7, 11, 12)]);
    // UTF-8 is checked in each piece alone, and comes before what stands further left.
    gives(
        b"@a{\xFF\n@a{k,}",
        &[
            (9, 0, 0, 5),
            (10, 2, 3, 3),
            (1, 0, 5, 10),
            (2, 0, 6, 7),
            (3, 0, 8, 9),
        ],
    );
    gives(b"@a{k}\xC3", &[(9, 0, 0, 6), (10, 2, 5, 5)]);
}

/// A cause has the whole character, at its place in the file; at its piece's end it is empty, though
/// the file goes on there.
#[test]
fn culprits() {
    for (c, width) in [('x', 1), ('é', 2), ('漢', 3), ('😀', 4)] {
        let pieces = [
            "é\n",
            &format!("@a{{k {c}\n"),
            "@b{k \n",
            &format!("@c {c}"),
        ];
        let mut starts = [0; 5];
        for (n, piece) in pieces.iter().enumerate() {
            starts[n + 1] = starts[n] + piece.len() as u32;
        }
        let [_, one, two, three, end] = starts;
        gives(
            pieces.concat().as_bytes(),
            &[
                (9, 0, one, two),
                (10, 7, one + 5, one + 5 + width),
                (9, 0, two, three),
                (10, 7, three, three),
                (9, 0, three, end),
                (10, 5, three + 3, end),
            ],
        );
    }
}

#[test]
fn lengths() {
    let long = vec![b' '; LONGEST_FILE + 1];
    assert_eq!(salvage(&long), read(&long));
    assert_eq!(salvage(&long[1..]), Ok(Vec::new()));
}
