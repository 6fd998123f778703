//! A part that decides something, at every place of a text that is otherwise plain: the readers look
//! at blocks of sixteen and of sixty-four bytes, and each place of a block, and each length of the
//! rest behind the last one, is to come out as byte by byte.

use crate::judge::Judge;

/// What stands before the plain bytes, one of these, and what stands behind them.
const TEXTS: [(&[u8], u8, &[u8]); 8] = [
    (b"@a{k,t={", b'x', b"}}"),
    (b"@a{k,t=\"", b'x', b"\"}"),
    (b"@preamble{\"", b'x', b"\"}"),
    (b"@a{k,", b'n', b"={v}}"),
    (b"@a{", b'k', b",t=1}"),
    (b"@a{k,}", b' ', b"@b{l,}"),
    (b"%", b'c', b"\n@b{l,}"),
    (b"junk", b'j', b"\n@b{l,}"),
];

const PARTS: [&[u8]; 17] = [
    b"",
    b"}",
    b"{",
    b"\\",
    b"\\}",
    b"\"",
    b"\\\"",
    b"|",
    b"\n",
    b"\n@",
    b"@",
    b"=",
    b",",
    "\u{e9}".as_bytes(),
    "\u{2003}".as_bytes(),
    "\u{1f4d6}".as_bytes(),
    b"\xFF",
];

/// Texts of up to 40 plain bytes, or 160.
pub fn run(judge: &mut Judge, long: bool) {
    let most = if long { 160 } else { 40 };
    let mut file = Vec::new();
    for (before, plain, after) in TEXTS {
        for length in 0..=most {
            for place in 0..=length {
                for part in PARTS {
                    file.clear();
                    file.extend_from_slice(before);
                    file.resize(before.len() + place, plain);
                    file.extend_from_slice(part);
                    file.resize(before.len() + length + part.len(), plain);
                    file.extend_from_slice(after);
                    judge.check(&file);
                }
            }
        }
    }
}
