//! The writers: texts with rows of all kinds of chunks, sound and not.

use cases::chunks::{break_chunks, Chunks, CASES, CLASSES, NO_PLACES};
use cases::rows::LOST;
use cases::symbols::SEQUENCES;
use cases::Random;
use oracle::CHUNK_NUMBERS;

use crate::exhaustive;
use crate::judge::Judge;
use crate::sentences;
use crate::writes::{Asked, Writes};

/// The kinds of chunks.
pub const KINDS: [u32; 3] = [0, 1, 2];

/// Characters of one to four bytes, so that some places cut one.
const WIDTHS: &str = "aé漢😀\n";

const LENGTHS: [usize; 8] = [255, 256, 257, 4_096, 32_767, 65_534, 65_535, 65_536];

/// Chunks of a random text, at most.
const MOST: usize = 8;

/// What the texts are made of that some writers are asked about.
pub struct Texts {
    asked: Asked,
    /// One of each class of characters.
    classes: [&'static str; 8],
    /// What a long text is made of.
    parts: [&'static str; 5],
    /// What is put into a plain text, and what this is of before it and behind it.
    inside: [&'static str; 7],
    plain: [&'static str; 2],
}

/// Plain characters, escaped ones, line ends, and characters of several bytes.
pub const PLAIN: Texts = Texts {
    asked: Asked::Plain,
    classes: CLASSES,
    parts: ["a", "{", "\n", "a\n", "é"],
    inside: ["\n", "\r", "\r\n", " \n", "\n\n", "\u{B}", "é\n"],
    plain: ["x", "y"],
};

/// Letters of both cases, line ends, and what becomes longer.
pub const SENTENCES: Texts = Texts {
    asked: Asked::Sentences,
    classes: CASES,
    parts: ["a", "B", "C\n", "É", "İ"],
    inside: ["\n", "\r", " \r\n", "é", "É\n", "ß", "\u{3000}\n"],
    plain: ["X", "Y"],
};

impl Texts {
    fn writes(&self) -> Writes {
        Writes::new(self.asked)
    }

    /// Every text of at most five (quick: three) characters, one of each class, cut into chunks of
    /// every kind in every way; a cut counts as a character.
    pub fn sequences(&self, judge: &mut Judge, long: bool) {
        let mut writes = self.writes();
        writes.check(judge, b"", &[]);
        let left = if long { 5 } else { 3 };
        for kind in KINDS {
            self.extend(judge, &mut writes, "", &[kind, 0, 0, 0, 0], left);
        }
    }

    fn extend(
        &self,
        judge: &mut Judge,
        writes: &mut Writes,
        text: &str,
        rows: &[u32],
        left: usize,
    ) {
        writes.check(judge, text.as_bytes(), rows);
        if left == 0 {
            return;
        }
        for class in self.classes {
            let text = format!("{text}{class}");
            let mut rows = rows.to_vec();
            let end = rows.len() - 3;
            rows[end] = text.len() as u32;
            self.extend(judge, writes, &text, &rows, left - 1);
        }
        let end = text.len() as u32;
        for kind in KINDS {
            let rows = [rows, &[kind, end, end, 0, 0]].concat();
            self.extend(judge, writes, text, &rows, left - 1);
        }
    }

    /// Characters where white space, escapes or cases are asked for.
    pub fn characters(&self, judge: &mut Judge, long: bool) {
        match self.asked {
            Asked::Plain => self.some_characters(judge, long),
            Asked::Sentences => sentences::characters(judge, long),
        }
    }

    /// A line end follows each, in its own chunk and after a Verbatim one.
    fn some_characters(&self, judge: &mut Judge, long: bool) {
        let mut writes = self.writes();
        for c in exhaustive::some_characters(long) {
            let text = format!("{c}\n");
            let (end, all) = (text.len() as u32 - 1, text.len() as u32);
            let rows = [0, 0, all, 0, 0, 1, 0, end, 0, 0, 0, end, all, 0, 0];
            writes.check(judge, text.as_bytes(), &rows);
        }
    }

    /// One row with every range of a short text and past it, and with kinds that are none.
    pub fn ranges(&self, judge: &mut Judge) {
        let mut writes = self.writes();
        let far = NO_PLACES.into_iter().chain(NO_PLACES.map(|far| far | 1));
        let places: Vec<u32> = (0..WIDTHS.len() as u32 + 3).chain(far).collect();
        let lost = LOST.into_iter().chain(LOST.map(|lost| 15 * lost));
        let kinds: Vec<u32> = (0..6).chain(lost).collect();
        for &from in &places {
            for &to in &places {
                for &kind in &kinds {
                    let row = [kind, from, to, to, from];
                    writes.check(judge, WIDTHS.as_bytes(), &row);
                    // Behind a row that is sound.
                    let rows = [[1, 0, 3, 0, 0], row].concat();
                    writes.check(judge, WIDTHS.as_bytes(), &rows);
                }
            }
        }
    }

    /// Every count of numbers up to four rows, of which every fifth is a whole count.
    pub fn counts(&self, judge: &mut Judge) {
        let mut writes = self.writes();
        for kind in KINDS {
            let rows = [kind, 1, 3, 0, 0].repeat(4);
            for numbers in 0..=4 * CHUNK_NUMBERS {
                writes.check(judge, WIDTHS.as_bytes(), &rows[..numbers]);
                writes.check(judge, b"\n\n\xFF", &rows[..numbers]);
            }
        }
    }

    /// Sequences around what RFC 3629 allows, two in a text, by sound rows and by others.
    pub fn sequences_of_bytes(&self, judge: &mut Judge) {
        let mut writes = self.writes();
        for first in SEQUENCES {
            for second in SEQUENCES {
                let text = [b"a", first, b"\n", second].concat();
                let (middle, end) = (1 + first.len() as u32, text.len() as u32);
                for kind in KINDS {
                    let sound = [kind, 0, middle, 0, 0, 0, middle, end, 0, 0];
                    writes.check(judge, &text, &sound);
                    writes.check(judge, &text, &sound[..9]);
                    for place in 0..=end + 1 {
                        writes.check(judge, &text, &[kind, 1, place, 0, 0]);
                    }
                }
            }
        }
    }

    /// Texts of many lengths, each of one part over and over, as one chunk and as many.
    pub fn lengths(&self, judge: &mut Judge) {
        let mut writes = self.writes();
        for part in self.parts {
            for count in (0..200).chain(LENGTHS) {
                let text = part.repeat(count);
                for kind in KINDS {
                    let whole = [kind, 0, text.len() as u32, 0, 0];
                    writes.check(judge, text.as_bytes(), &whole);
                    let rows = [kind, 0, part.len() as u32, 0, 0].repeat(count);
                    writes.check(judge, part.as_bytes(), &rows);
                }
            }
        }
    }

    /// A part at every place of a plain text: lines are gone over by blocks of sixteen bytes, and so is
    /// the check of a short text.
    pub fn blocks(&self, judge: &mut Judge, long: bool) {
        let mut writes = self.writes();
        let inside = self.inside.map(str::as_bytes);
        let [before, behind] = self.plain.map(str::as_bytes);
        for length in 0..=if long { 300 } else { 36 } {
            for place in 0..=length {
                for part in inside.into_iter().chain([&b"\xFF"[..]]) {
                    let front = before.repeat(place);
                    let text = [&front, part, &behind.repeat(length - place)].concat();
                    let kind = KINDS[(length + place) % KINDS.len()];
                    writes.check(judge, &text, &[kind, 0, text.len() as u32, 0, 0]);
                }
            }
        }
    }

    /// Random texts and rows, whole and broken in up to two places.
    pub fn drawn(&self, judge: &mut Judge, seed: u64, long: bool) {
        let mut random = Random::new(seed, 11);
        let (mut writes, mut text, mut rows) = (self.writes(), Vec::new(), Vec::new());
        let letters = self.letters();
        for _ in 0..if long { 200_000 } else { 2_000 } {
            draw(&mut random, &letters, &mut text, &mut rows);
            writes.check(judge, &text, &rows);
            for _ in 0..2 {
                break_chunks(&mut random, &mut text, &mut rows);
                writes.check(judge, &text, &rows);
            }
        }
    }

    /// Random texts and rows with every kind of room.
    pub fn rooms(&self, judge: &mut Judge, seed: u64, long: bool) {
        let mut random = Random::new(seed, 12);
        let (mut writes, mut text, mut rows) = (self.writes(), Vec::new(), Vec::new());
        let letters = self.letters();
        for turn in 0..if long { 40_000 } else { 400 } {
            draw(&mut random, &letters, &mut text, &mut rows);
            if turn % 4 == 0 {
                break_chunks(&mut random, &mut text, &mut rows);
            }
            writes.check_rooms(judge, &text, &rows);
        }
    }

    /// For sentences, the characters that have another case.
    fn letters(&self) -> Vec<String> {
        match self.asked {
            Asked::Plain => Vec::new(),
            Asked::Sentences => sentences::cased().map(String::from).collect(),
        }
    }
}

fn draw(random: &mut Random, letters: &[String], text: &mut Vec<u8>, rows: &mut Vec<u32>) {
    text.clear();
    rows.clear();
    let letters: Vec<&str> = letters.iter().map(String::as_str).collect();
    Chunks {
        random,
        letters: &letters,
        text,
        rows,
    }
    .draw(MOST);
}
