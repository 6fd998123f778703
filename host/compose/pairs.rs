//! Prints what the crate `unicode-normalization` composes of every scalar value with each of the
//! sixteen marks, in the form of crates/compose_cases/stdout. `host/compose/compare` builds and runs it.

use std::io::Write;

use unicode_normalization::char::compose;

const MARKS: [char; 16] = [
    '\u{300}', '\u{301}', '\u{302}', '\u{303}', '\u{304}', '\u{306}', '\u{307}', '\u{308}',
    '\u{30a}', '\u{30b}', '\u{30c}', '\u{323}', '\u{327}', '\u{328}', '\u{332}', '\u{338}',
];

fn main() -> std::io::Result<()> {
    let mut out = std::io::stdout().lock();
    let (mut asked, mut composed) = (0, 0);
    for letter in '\0'..=char::MAX {
        for mark in MARKS {
            asked += 1;
            if let Some(c) = compose(letter, mark) {
                composed += 1;
                writeln!(
                    out,
                    "{:04x} {:04x} {:04x}",
                    letter as u32, mark as u32, c as u32
                )?;
            }
        }
    }
    writeln!(out, "{composed} of {asked} pairs compose")
}
