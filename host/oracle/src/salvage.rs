//! 01's salvage: the file is cut, and the Rust reads each piece alone.
//!
//! The cutting is 01's three sentences and no more; all that is read is read by `read_into`, which
//! the piece is handed as a file of its own, so that nothing outside it can be seen: no character of
//! the next piece is the cause that this one is refused for.

use crate::rows::{read_into, Kind, Refusal, Row, LONGEST_FILE};

/// Salvages a file: the rows of its pieces in file order, or 01's refusal of a file too long.
pub fn salvage(file: &[u8]) -> Result<Vec<Row>, Refusal> {
    let mut rows = Vec::new();
    salvage_into(file, &mut rows)?;
    Ok(rows)
}

/// As `salvage`, into rows whose room is used again. They are empty after a refusal.
pub fn salvage_into(file: &[u8], rows: &mut Vec<Row>) -> Result<(), Refusal> {
    rows.clear();
    if file.len() > LONGEST_FILE {
        return Err(Refusal::new(1, 0..0));
    }
    let mut of_piece = Vec::new();
    let mut start = 0;
    while start < file.len() {
        let end = piece_end(file, start);
        match read_into(&file[start..end], &mut of_piece) {
            Ok(()) => rows.extend(of_piece.iter().map(|row| moved(row, start))),
            Err(cause) => {
                rows.push(Row::new(Kind::Damage, &(start..end)));
                rows.push(moved(&row_of(cause), start));
            }
        }
        start = end;
    }
    Ok(())
}

/// Where the piece ends that starts here: at the next boundary, or with the file. A piece starts
/// at byte 0 or at a boundary, so those further on all stand behind a newline.
fn piece_end(file: &[u8], start: usize) -> usize {
    let next = file[start..].windows(2).position(|pair| pair == b"\n@");
    next.map_or(file.len(), |newline| start + newline + 1)
}

fn row_of(cause: Refusal) -> Row {
    Row {
        kind: Kind::Cause as u32,
        detail: cause.number,
        start: cause.start,
        end: cause.end,
    }
}

/// A piece's row at its place in the file.
fn moved(row: &Row, by: usize) -> Row {
    let by = by as u32;
    Row {
        start: row.start + by,
        end: row.end + by,
        ..*row
    }
}
