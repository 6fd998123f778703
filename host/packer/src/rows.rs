//! Packing and unpacking.

use crate::check::Walk;
use crate::{BYTES, NUMBERS};

/// The last place that a packed row can have.
pub const LAST_PLACE: u32 = 16_777_215;

/// 01's refusal 17.
#[derive(Debug, Clone, Copy, PartialEq, Eq)]
pub struct BadRows;

/// Packs rows, four numbers each, into bytes whose room is used again. After a refusal the bytes
/// mean nothing.
pub fn pack_into(rows: &[u32], bytes: &mut Vec<u8>) -> Result<(), BadRows> {
    let mut walk = Walk::new();
    let (each, whole) = rows_of(rows, bytes);
    for (row, packed) in each {
        judge(&mut walk, row)?;
        write(row, packed);
    }
    ended(walk, whole)
}

/// The same, but a refusal leaves the bytes as they were, as the proved function does: all rows are
/// judged before the first is written.
pub fn judge_and_pack_into(rows: &[u32], bytes: &mut Vec<u8>) -> Result<(), BadRows> {
    let mut walk = Walk::new();
    let each = rows.chunks_exact(NUMBERS);
    let whole = each.remainder().is_empty();
    for row in each {
        judge(&mut walk, row)?;
    }
    ended(walk, whole)?;
    let (each, _) = rows_of(rows, bytes);
    each.for_each(|(row, packed)| write(row, packed));
    Ok(())
}

/// Each row with its bytes, and whether no numbers are left. Bytes that are there already are all
/// written over.
fn rows_of<'a>(
    rows: &'a [u32],
    bytes: &'a mut Vec<u8>,
) -> (impl Iterator<Item = (&'a [u32], &'a mut [u8])>, bool) {
    bytes.resize(rows.len() / NUMBERS * BYTES, 0);
    let each = rows.chunks_exact(NUMBERS);
    let whole = each.remainder().is_empty();
    (each.zip(bytes.chunks_exact_mut(BYTES)), whole)
}

fn judge(walk: &mut Walk, row: &[u32]) -> Result<(), BadRows> {
    let &[kind, detail, start, end] = row else {
        unreachable!("a chunk has four numbers");
    };
    if !walk.step(kind, detail) || start > end || end > LAST_PLACE {
        return Err(BadRows);
    }
    Ok(())
}

/// Writes a row that was judged.
fn write(row: &[u32], packed: &mut [u8]) {
    let &[kind, detail, start, end] = row else {
        unreachable!("a chunk has four numbers");
    };
    let places = u64::from(start) << 24 | u64::from(end - start);
    let number = u64::from(kind) << 52 | u64::from(detail) << 48 | places;
    packed.copy_from_slice(&number.to_be_bytes()[1..]);
}

/// Unpacks bytes into rows whose room is used again. After a refusal the rows mean nothing.
pub fn unpack_into(bytes: &[u8], rows: &mut Vec<u32>) -> Result<(), BadRows> {
    rows.resize(bytes.len() / BYTES * NUMBERS, 0);
    let mut walk = Walk::new();
    let each = bytes.chunks_exact(BYTES);
    let whole = each.remainder().is_empty();
    for (packed, row) in each.zip(rows.chunks_exact_mut(NUMBERS)) {
        let numbers = numbers_of(packed);
        judge(&mut walk, &numbers)?;
        row.copy_from_slice(&numbers);
    }
    ended(walk, whole)
}

/// The same, but a refusal leaves the rows as they were.
pub fn judge_and_unpack_into(bytes: &[u8], rows: &mut Vec<u32>) -> Result<(), BadRows> {
    let mut walk = Walk::new();
    let each = bytes.chunks_exact(BYTES);
    let whole = each.remainder().is_empty();
    for packed in each.clone() {
        judge(&mut walk, &numbers_of(packed))?;
    }
    ended(walk, whole)?;
    rows.resize(bytes.len() / BYTES * NUMBERS, 0);
    for (packed, row) in each.zip(rows.chunks_exact_mut(NUMBERS)) {
        row.copy_from_slice(&numbers_of(packed));
    }
    Ok(())
}

fn numbers_of(packed: &[u8]) -> [u32; NUMBERS] {
    let &[head, a, b, c, d, e, f] = packed else {
        unreachable!("a chunk has seven bytes");
    };
    let start = u32::from_be_bytes([0, a, b, c]);
    let end = start + u32::from_be_bytes([0, d, e, f]);
    [u32::from(head >> 4), u32::from(head & 15), start, end]
}

fn ended(walk: Walk, whole: bool) -> Result<(), BadRows> {
    if whole && walk.may_end() {
        Ok(())
    } else {
        Err(BadRows)
    }
}
