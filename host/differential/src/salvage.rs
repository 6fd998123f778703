//! Salvage: files with boundaries, and with what only looks like one.

use cases::symbols::{ALPHABET, PIECES};

use crate::exhaustive;
use crate::judge::Judge;

/// Lengths at which a place of 8, 16 or 24 bits is full.
const LENGTHS: [usize; 14] = [
    0, 1, 2, 7, 127, 128, 254, 255, 256, 257, 65_534, 65_535, 65_536, 65_537,
];

/// What stands at such a place: sound pieces, refused ones of either sort, and both.
const AT: [&[u8]; 6] = [
    b"@a{k,t={x} # y}\n",
    b"@a{\n@string{s=1}\n",
    b"@a{k,y=1.2.3}\n@preamble{\"x\"}",
    b"@a{k,}\xFF\n@\n@b{k,}",
    b"@a{k,} @a{k}\n@b{k,}\n@",
    b"@a{k,t={\n@b{k,}}}\n",
];

/// Pieces that a file has many of.
const MANY: [&[u8]; 5] = [b"@\n", b"@a{k,}\n", b"@a{k}\n", b"\n@\xFF", b"@comment{\n"];

/// Every string of at most six (quick: four) of what matters to salvage, and of at most five
/// (quick: three) characters of the reader's alphabet.
pub fn short(judge: &mut Judge, long: bool) {
    let (pieces, characters) = if long { (6, 5) } else { (4, 3) };
    exhaustive::strings(judge, b"", &PIECES, pieces);
    exhaustive::strings(judge, b"", &ALPHABET, characters);
}

/// Pieces at edge places, many pieces, and files as long as they may be and longer.
pub fn places(judge: &mut Judge, long: bool) {
    for n in LENGTHS {
        AT.iter()
            .for_each(|end| at_place(judge, n, end, Judge::check_rooms));
        MANY.iter().for_each(|piece| judge.check(&piece.repeat(n)));
    }
    for end in &AT[..if long { AT.len() } else { 1 }] {
        for less in [end.len() - 1, end.len(), end.len() + 1] {
            at_place(judge, oracle::LONGEST_FILE - less, end, Judge::check);
        }
    }
}

/// This end behind so many bytes, which are blanks up to a newline, and a piece of their own. Where
/// another byte stands for the newline, the end does not start at a boundary.
fn at_place(judge: &mut Judge, place: usize, end: &[u8], check: fn(&mut Judge, &[u8])) {
    let mut file = vec![b' '; place];
    file.extend_from_slice(end);
    for last in [b'\n', b'\r', b'@'] {
        if place > 0 {
            file[place - 1] = last;
        }
        check(judge, &file);
    }
}
