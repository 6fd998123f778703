//! All strings of a kind.

use cases::symbols::{ALPHABET, AROUND, HEADS, WIDER};

use crate::judge::Judge;

/// Bytes at the edges of RFC 3629's table, with some that matter to the grammar.
const EDGES: [u8; 28] = [
    0x00, 0x40, 0x7B, 0x7F, 0x80, 0x8F, 0x90, 0x9F, 0xA0, 0xBF, 0xC0, 0xC1, 0xC2, 0xDF, 0xE0, 0xE1,
    0xEC, 0xED, 0xEE, 0xEF, 0xF0, 0xF1, 0xF3, 0xF4, 0xF5, 0xF7, 0xF8, 0xFF,
];

/// Every string of at most six (quick: four) characters of the alphabet.
pub fn short(judge: &mut Judge, long: bool) {
    strings(judge, b"", &ALPHABET, if long { 6 } else { 4 });
}

/// Every string of at most four (quick: three) characters behind each head.
pub fn tails(judge: &mut Judge, long: bool) {
    for head in HEADS {
        strings(judge, head, &WIDER, if long { 4 } else { 3 });
    }
}

/// The head as a file, and with every string of at most so many of the symbols behind it.
pub fn strings(judge: &mut Judge, head: &[u8], symbols: &[&[u8]], most: usize) {
    let mut file = head.to_vec();
    extend(&mut file, symbols, most, &mut |file| judge.check(file));
}

/// Checks what there is, and with every sequence of at most so many of the symbols behind it.
pub fn extend<T: Clone>(
    begun: &mut Vec<T>,
    symbols: &[impl AsRef<[T]>],
    left: usize,
    check: &mut impl FnMut(&[T]),
) {
    check(begun);
    if left == 0 {
        return;
    }
    for symbol in symbols {
        let length = begun.len();
        begun.extend_from_slice(symbol.as_ref());
        extend(begun, symbols, left - 1, check);
        begun.truncate(length);
    }
}

/// Every sequence of at most so many kinds of rows, one that is none among them. What is longer is reached
/// behind an entry or a definition that has a value.
pub fn kinds(most: usize, mut check: impl FnMut(&[u32])) {
    let kinds: [[u32; 1]; 12] = std::array::from_fn(|kind| [kind as u32]);
    for head in [&[][..], &[1, 2, 3, 4, 5, 6], &[8, 5, 7], &[1, 2, 3, 4]] {
        let left = if head.is_empty() { most } else { most - 1 };
        extend(&mut head.to_vec(), &kinds, left, &mut check);
    }
}

/// All bytes alone and in pairs, and all strings of three and of four (quick: three) edge bytes,
/// alone and as a value.
pub fn sequences(judge: &mut Judge, long: bool) {
    for pair in 0..=u16::MAX {
        let [first, second] = pair.to_be_bytes();
        judge.check(&[first, second]);
        if second == 0 {
            judge.check(&[first]);
        }
    }
    for length in 3..=if long { 4 } else { 3 } {
        for number in 0..EDGES.len().pow(length) {
            edge_bytes(judge, number, length as usize);
        }
    }
}

/// The string whose bytes are the digits of a number, to the base of their count.
fn edge_bytes(judge: &mut Judge, mut number: usize, length: usize) {
    let mut file = *b"@a{k,t={....}}";
    let place = 8..8 + length;
    for byte in &mut file[place.clone()] {
        *byte = EDGES[number % EDGES.len()];
        number /= EDGES.len();
    }
    judge.check(&file);
    judge.check(&file[place]);
}

/// Every character, or in a quick run those up to U+30FF and the ends of the planes.
pub fn some_characters(long: bool) -> impl Iterator<Item = char> {
    let asked = move |c: &char| {
        let number = u32::from(*c);
        long || number < 0x3100 || number % 0x1000 < 2 || number % 0x1000 > 0xFFD
    };
    ('\0'..=char::MAX).filter(asked)
}

/// These, where each class of characters is asked for.
pub fn characters(judge: &mut Judge, long: bool) {
    let mut file = Vec::new();
    for c in some_characters(long) {
        around(judge, &mut file, c);
    }
}

/// The character in each of the places that show its class.
fn around(judge: &mut Judge, file: &mut Vec<u8>, c: char) {
    for (before, after) in AROUND {
        file.clear();
        file.extend_from_slice(before.as_bytes());
        file.extend_from_slice(c.encode_utf8(&mut [0; 4]).as_bytes());
        file.extend_from_slice(after.as_bytes());
        judge.check(file);
    }
}
