//! Lengths at which a number of 8, 16 or 24 bits is full, or a reader goes another way.

use cases::symbols::PARTS;

use crate::judge::Judge;

const LENGTHS: [usize; 13] = [0, 1, 2, 7, 15, 16, 17, 127, 128, 255, 256, 257, 300];
const LONG_LENGTHS: [usize; 4] = [65_534, 65_535, 65_536, 65_537];

/// Files as long as they may be, by two bytes, by one, just, and not any more. A quick run takes
/// the first two shapes.
const FULL: [(&[u8], u8, &[u8]); 7] = [
    (b"@a{k,t={", b'x', b"}}"),
    (b"", b' ', b"\xFF"),
    (b"@a{k,t={", b'x', b"}"),
    (b"@preamble{\"", b'x', b"\"\""),
    (b"@a{", b'k', b""),
    (b"@a{k,t={", b'{', b""),
    (b"", b'%', b"\xE2\x82"),
];

pub fn run(judge: &mut Judge, long: bool) {
    for part in PARTS {
        LENGTHS.iter().for_each(|&n| repeated(judge, part, n));
        let longest = if long { &LONG_LENGTHS[..] } else { &[] };
        longest.iter().for_each(|&n| repeated(judge, part, n));
    }
    for n in LENGTHS.into_iter().chain(LONG_LENGTHS) {
        deep(judge, n);
    }
    once(judge);
    for shape in &FULL[..if long { FULL.len() } else { 2 }] {
        full(judge, shape);
    }
}

/// The part `n` times, and the same cut off before its end.
fn repeated(judge: &mut Judge, (before, part, after): (&[u8], &[u8], &[u8]), n: usize) {
    let mut file = before.to_vec();
    file.extend(part.iter().cycle().take(n * part.len()));
    judge.check(&file);
    file.extend_from_slice(after);
    judge.check_rooms(&file);
}

/// Around the files that are read once, into a room of the call's own: by their length, and by their
/// rows, which must find room there.
fn once(judge: &mut Judge) {
    for length in (255..=258).chain(65_534..=65_537) {
        let mut file = b"@a{k,t={x}}".to_vec();
        file.resize(length, b' ');
        judge.check_rooms(&file);
    }
    // Five rows, and one for each name.
    for names in 1_993..=1_997 {
        let file = b"@a{k,t=n".to_vec();
        let mut file = [file, b"#n".repeat(names - 1)].concat();
        judge.check_rooms(&file);
        file.push(b'}');
        judge.check_rooms(&file);
    }
}

/// Braces `n` deep, closed, not quite closed, and closed once too often.
fn deep(judge: &mut Judge, n: usize) {
    for closing in [n.saturating_sub(1), n, n + 1] {
        let mut file = b"@a{k,t={".to_vec();
        file.resize(file.len() + n, b'{');
        file.resize(file.len() + closing, b'}');
        file.extend_from_slice(b"}}");
        judge.check(&file);
    }
}

fn full(judge: &mut Judge, &(before, part, after): &(&[u8], u8, &[u8])) {
    for length in oracle::LONGEST_FILE - 2..=oracle::LONGEST_FILE + 2 {
        let mut file = before.to_vec();
        file.resize(length - after.len(), part);
        file.extend_from_slice(after);
        judge.check(&file);
    }
}
