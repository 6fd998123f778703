//! Texts and rows of their chunks to try a writer on: what writers tell apart, in chunks of all
//! kinds, and what breaks texts and rows.

use crate::rows::LOST;
use crate::symbols::SEQUENCES;
use crate::Random;

/// The numbers of a chunk row, and how many kinds there are.
const NUMBERS: usize = 5;
const KINDS: usize = 3;

/// One of each class that a writer tells apart, for all short sequences: plain characters of one
/// and two bytes, white space of one and three, both line ends, what is always escaped, and what is
/// escaped unless the field is verbatim.
pub const CLASSES: [&str; 8] = ["a", "é", " ", "\u{3000}", "\n", "\r", "{", "_"];

/// One of each class that sentence case tells apart, likewise: a letter that is raised and one that is
/// lowered, one that is raised to two letters and one that is lowered to two characters, white space of one
/// byte and of three, and both line ends.
pub const CASES: [&str; 8] = ["a", "B", "ß", "İ", " ", "\u{3000}", "\n", "\r"];

/// The characters that are white space.
#[rustfmt::skip]
pub const WHITE_SPACE: [&str; 25] = [
    "\t", "\n", "\u{B}", "\u{C}", "\r", " ", "\u{85}", "\u{A0}", "\u{1680}", "\u{2000}", "\u{2001}", "\u{2002}",
    "\u{2003}", "\u{2004}", "\u{2005}", "\u{2006}", "\u{2007}", "\u{2008}", "\u{2009}", "\u{200A}", "\u{2028}",
    "\u{2029}", "\u{202F}", "\u{205F}", "\u{3000}",
];

/// Characters for random texts: line ends, white space and what only looks like it, marks that are
/// escaped or could be taken for such, and plain ones of every length.
const CHARACTERS: [&str; 40] = [
    "\n", "\r", "\r\n", "\n\n", " ", "\t", "\u{B}", "\u{C}", "\u{1C}", "\u{85}", "\u{A0}",
    "\u{1680}", "\u{2003}", "\u{200B}", "\u{2028}", "\u{2029}", "\u{202F}", "\u{205F}", "\u{3000}",
    "\u{FEFF}", "{", "}", "\\", "~", "^", "#", "&", "%", "$", "_", ":", "-", "\"", "a", "B", "\0",
    "é", "\u{301}", "漢", "😀",
];

/// What no place of a text can be.
pub const NO_PLACES: [u32; 6] = [
    0x100,
    0x1_0000,
    0x0100_0000,
    0x7FFF_FFFF,
    0x8000_0000,
    u32::MAX,
];

/// Writes a text and rows of its chunks.
pub struct Chunks<'a> {
    pub random: &'a mut Random,
    /// Characters of which half a text is drawn, if there are any.
    pub letters: &'a [&'a str],
    pub text: &'a mut Vec<u8>,
    pub rows: &'a mut Vec<u32>,
}

impl Chunks<'_> {
    /// At most `most` chunks, behind some text that may belong to none.
    pub fn draw(&mut self, most: usize) {
        self.characters(2);
        for _ in 0..self.random.length(most) {
            self.chunk();
        }
    }

    /// A chunk: mostly of new text, else of any part of what is there.
    fn chunk(&mut self) {
        let kind = self.random.below(KINDS) as u32;
        let (from, to) = if self.random.one_in(4) {
            let (one, other) = (self.boundary(), self.boundary());
            (one.min(other), one.max(other))
        } else {
            let from = self.text.len();
            self.characters(8);
            (from, self.text.len())
        };
        let span = [self.random.next() as u32, self.random.next() as u32];
        self.rows.extend([kind, from as u32, to as u32]);
        self.rows.extend(span);
    }

    fn characters(&mut self, most: usize) {
        for _ in 0..self.random.below(most + 1) {
            let are_letters = !self.letters.is_empty() && self.random.one_in(2);
            let from = if are_letters {
                self.letters
            } else {
                &CHARACTERS
            };
            let character = self.random.pick(from);
            self.text.extend_from_slice(character.as_bytes());
        }
    }

    /// A place that cuts no character.
    fn boundary(&mut self) -> usize {
        let mut place = self.random.below(self.text.len() + 1);
        while self.text.get(place).is_some_and(|byte| byte & 0xC0 == 0x80) {
            place -= 1;
        }
        place
    }
}

/// Changes a text or its rows in one place, mostly so that the text is no UTF-8 any more or a row
/// is none of its chunks.
pub fn break_chunks(random: &mut Random, text: &mut Vec<u8>, rows: &mut Vec<u32>) {
    if random.one_in(3) || rows.len() < NUMBERS {
        break_text(random, text);
    } else {
        break_rows(random, text.len(), rows);
    }
}

fn break_text(random: &mut Random, text: &mut Vec<u8>) {
    let at = random.below(text.len() + 1);
    match random.below(4) {
        0 if at < text.len() => text[at] = random.next() as u8,
        1 => text.truncate(at),
        2 if at < text.len() => drop(text.remove(at)),
        _ => drop(text.splice(at..at, random.pick(&SEQUENCES).iter().copied())),
    }
}

fn break_rows(random: &mut Random, length: usize, rows: &mut Vec<u32>) {
    let at = NUMBERS * random.below(rows.len() / NUMBERS);
    let place = at + 1 + random.below(2);
    match random.below(8) {
        0 => rows[at] = random.below(8) as u32,
        1 => rows[at] ^= LOST[random.below(LOST.len())],
        2 => rows.swap(at + 1, at + 2),
        3 => rows[place] = random.below(length + 3) as u32,
        4 => rows[place] ^= NO_PLACES[random.below(NO_PLACES.len())],
        5 => rows[place] = rows[place].wrapping_add(1),
        6 => rows.truncate(at + random.below(NUMBERS)),
        _ => rows.extend([0; NUMBERS - 1].iter().take(1 + random.below(NUMBERS - 1))),
    }
}
