//! Damage done to a file.

use crate::Random;

/// Bytes and sequences that matter to the grammar or to UTF-8.
const SHARDS: [&[u8]; 26] = [
    b"@",
    b"{",
    b"}",
    b"\"",
    b",",
    b"=",
    b"#",
    b"%",
    b"\\",
    b"\n",
    b" ",
    b"1",
    b".",
    b"a",
    b"\0",
    b"\x7F",
    b"\x80",
    b"\xC3\xA9",
    b"\xC2\x85",
    b"\xC2",
    b"\xE3\x80\x80",
    b"\xED\xA0\x80",
    b"\xF0\x9F\x98\x80",
    b"\xFF",
    b"@string{",
    b"@preamble{\"",
];

/// Changes `file` in one place: deletes, inserts, changes, cuts it off, doubles a stretch, or goes
/// on with the rest of `other`.
pub fn damage(random: &mut Random, file: &mut Vec<u8>, other: &[u8]) {
    let at = random.below(file.len() + 1);
    let end = (at + 1 + random.length(8)).min(file.len());
    match random.below(8) {
        0 => drop(file.drain(at.min(end)..end)),
        1 | 2 => insert(file, at, random.pick(&SHARDS)),
        3 => replace(file, at, random.pick(&SHARDS)),
        4 if at < file.len() => file[at] = random.next() as u8,
        5 => file.truncate(at),
        6 => {
            let stretch = file[at.min(end)..end].to_vec();
            insert(file, at, &stretch);
        }
        _ => {
            file.truncate(at);
            file.extend_from_slice(&other[random.below(other.len() + 1)..]);
        }
    }
}

/// What makes a boundary where salvage cuts, what only looks like one, and what spoils the piece
/// that it stands in.
const TEARS: [&[u8]; 16] = [
    b"\n@",
    b"\n\n@",
    b"\r\n@",
    b"\r@",
    b" @",
    b"\n @",
    b"\n",
    b"@",
    b"\n@a{k,}\n",
    b"\n@a{k,t={x}",
    b"\n@comment{",
    b"\n@string{s=1}\n@",
    b"\xFF",
    b"\xC3\n@",
    b"\n@\xE2\x82",
    b"\xC2\x85@",
];

/// Puts into `file`, at one place, something that matters to salvage.
pub fn tear(random: &mut Random, file: &mut Vec<u8>) {
    let at = random.below(file.len() + 1);
    insert(file, at, random.pick(&TEARS));
}

fn insert(file: &mut Vec<u8>, at: usize, shard: &[u8]) {
    file.splice(at..at, shard.iter().copied());
}

fn replace(file: &mut Vec<u8>, at: usize, shard: &[u8]) {
    let end = (at + 1).min(file.len());
    file.splice(at..end, shard.iter().copied());
}
