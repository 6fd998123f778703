//! Files with names, their rows, and month words, to try a resolver of fields on.

use crate::literals::{break_literal, Literals};
use crate::Random;

/// A part of a value.
#[derive(Clone)]
pub enum Element {
    Literal(String),
    Name(String),
}

/// A literal.
pub fn literal(text: impl Into<String>) -> Element {
    Element::Literal(text.into())
}

/// A name.
pub fn name(text: impl Into<String>) -> Element {
    Element::Name(text.into())
}

/// A file that is being written, with its rows. Literals may hold anything: the rows say where they
/// end, whether or not a reader would.
#[derive(Clone, Default)]
pub struct Draft {
    pub file: String,
    pub rows: Vec<u32>,
}

impl Draft {
    /// The number of the next row.
    pub fn next(&self) -> usize {
        self.rows.len() / 4
    }

    fn row(&mut self, kind: u32, detail: u32, from: usize, to: usize) {
        self.rows.extend([kind, detail, from as u32, to as u32]);
    }

    /// Writes this and makes it a row.
    fn put(&mut self, kind: u32, text: &str) {
        let from = self.file.len();
        self.file += text;
        self.row(kind, 0, from, self.file.len());
    }

    /// An entry's beginning; its row has the "@" alone.
    pub fn entry(&mut self) {
        self.file.push('\n');
        self.put(1, "@");
        self.put(2, "b");
        self.file.push('{');
        self.put(3, "k");
        self.file.push(',');
    }

    /// A field of the entry that was begun last. Says which row is its value's.
    pub fn field(&mut self, name: &str, elements: &[Element]) -> usize {
        self.named(4, name, elements)
    }

    /// A definition. Says which row is its value's.
    pub fn definition(&mut self, name: &str, elements: &[Element]) -> usize {
        self.file += "}\n@string{";
        self.named(8, name, elements)
    }

    fn named(&mut self, kind: u32, name: &str, elements: &[Element]) -> usize {
        self.put(kind, name);
        self.file.push('=');
        let (row, start) = (self.rows.len(), self.file.len());
        self.row(5, 0, start, start);
        for (i, element) in elements.iter().enumerate() {
            self.file += if i > 0 { "#" } else { "" };
            match element {
                Element::Name(name) => self.put(7, name),
                Element::Literal(text) => {
                    self.file.push('{');
                    self.put(6, text);
                    self.file.push('}');
                }
            }
        }
        self.rows[row + 3] = self.file.len() as u32;
        self.file += ",";
        row / 4
    }

    pub fn preamble(&mut self) {
        self.file += "}\n@preamble{";
        self.put(0, "\"a\"");
    }

    pub fn damage(&mut self) {
        self.file += "}\n";
        self.put(9, "@may{");
        let end = self.file.len();
        self.row(10, 7, end, end);
    }
}

/// Month words with their texts: four numbers each, and the bytes that they are of.
#[derive(Clone, Default)]
pub struct Months {
    pub numbers: Vec<u32>,
    pub words: Vec<u8>,
}

impl Months {
    pub fn lend(&mut self, word: &str, text: &str) {
        for part in [word, text] {
            let from = self.words.len() as u32;
            self.words.extend_from_slice(part.as_bytes());
            self.numbers.extend([from, self.words.len() as u32]);
        }
    }

    /// Those of the year, in English.
    pub fn english() -> Self {
        let mut months = Self::default();
        for (word, text) in ENGLISH {
            months.lend(word, text);
        }
        months
    }
}

/// Lists that are said once, with the wrappers. The file is taken and not their crate, since that needs
/// libbib.a, and cases do not. It is no judge: the months are lent to both sides.
#[allow(dead_code)]
#[path = "../../proved/src/known.rs"]
mod known;

pub use known::MONTHS as ENGLISH;

/// Names, few enough to meet again; some differ in case, by a letter or in form, and one is empty.
pub const NAMES: [&str; 14] = [
    "a", "b", "c", "A", "ab", "é", "e\u{301}", "漢字", "漢", "may", "jan", "May", "a-b", "",
];

/// Texts of months: empty, of several bytes, and with what means something in a literal.
const TEXTS: [&str; 7] = ["May", "", "Mai", "mai 5", "五月", "{x}$\\'e", " --\n"];

/// Draws files with names.
pub struct Fields<'a> {
    pub random: &'a mut Random,
    /// How many of the names are used and defined.
    pub names: usize,
    /// Once in how many literals one is broken.
    pub odd: usize,
}

impl Fields<'_> {
    fn any_name(&mut self) -> &'static str {
        NAMES[self.random.below(self.names)]
    }

    /// A value of at most `most` elements, with names once in so many.
    pub fn value(&mut self, most: usize, seldom: usize) -> Vec<Element> {
        let count = 1 + self.random.length(most - 1);
        let element = |_| {
            if self.random.one_in(seldom) {
                return name(self.any_name());
            }
            let (mut text, random) = (String::new(), &mut *self.random);
            let (out, odd) = (&mut text, usize::MAX);
            Literals { random, out, odd }.content(4, 2);
            if self.random.one_in(self.odd) {
                break_literal(self.random, &mut text);
            }
            literal(text)
        };
        (0..count).map(element).collect()
    }

    /// A file of some items. Names stand in definitions less often than in fields, so that not all
    /// come to a cycle.
    pub fn draft(&mut self, most: usize) -> Draft {
        let mut draft = Draft::default();
        for _ in 0..1 + self.random.length(most) {
            match self.random.below(9) {
                0 => draft.preamble(),
                1 => draft.damage(),
                2..=4 => {
                    draft.entry();
                    for _ in 0..self.random.length(3) {
                        draft.field("t", &self.value(6, 2));
                    }
                }
                _ => {
                    let seldom = 2 + self.random.below(6);
                    let value = self.value(4, seldom);
                    draft.definition(self.any_name(), &value);
                }
            }
        }
        draft
    }

    /// Some month words, now and then one twice.
    pub fn months(&mut self) -> Months {
        let mut months = Months::default();
        for _ in 0..self.random.length(6) {
            let text = TEXTS[self.random.below(TEXTS.len())];
            months.lend(self.any_name(), text);
        }
        months
    }
}
