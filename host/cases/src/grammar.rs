//! Files by grammar: what a .bib file may hold, in odd forms more often than in real ones.

use crate::Random;

/// Characters that an identifier may start and go on with. A value that starts with a digit is a
/// number, so digits come only later.
const LETTERS: [&str; 12] = [
    "a",
    "Z",
    "t",
    "_",
    "*",
    "/",
    ".",
    "é",
    "ß",
    "漢",
    "\u{1F600}",
    "\u{301}",
];
const MORE: [&str; 9] = ["0", "9", "-", ":", "<", ">", "+", "!", "\u{FEFF}"];
/// Characters that only a key may have.
const IN_KEYS: [&str; 12] = ["@", "{", "\"", "#", "'", "(", ")", "=", "%", "\\", "~", "`"];
/// Every white space that has one or two bytes, and some that have three.
const SPACES: [&str; 12] = [
    " ", "\n", "\t", "\r\n", "\r", "\u{B}", "\u{C}", "\u{85}", "\u{A0}", "\u{1680}", "\u{2003}",
    "\u{3000}",
];
/// Pieces of text inside a value: nothing here ends a literal or opens a brace.
const TEXT: [&str; 22] = [
    "word",
    " ",
    "x",
    "é",
    "漢",
    "\u{1F600}",
    "\n",
    "%",
    "@",
    "@a{k,}",
    "#",
    ",",
    "=",
    "\\{",
    "\\}",
    "\\\"",
    "\\\\",
    "\\é",
    "\\\n",
    "\0",
    "$",
    "~",
];
const TYPES: [&str; 10] = [
    "article",
    "book",
    "a",
    "string_",
    "strings",
    "comments",
    "preamblE1",
    "é",
    "misc",
    "1",
];

/// Writes files by grammar.
pub struct Grammar<'a> {
    pub random: &'a mut Random,
    pub out: &'a mut Vec<u8>,
    /// Once in how many tokens one is left out or another put instead.
    pub odd: usize,
}

impl Grammar<'_> {
    /// A file of at most `most` items, after what is there already.
    pub fn file(&mut self, most: usize) {
        for _ in 0..self.random.length(most) {
            self.item();
            self.spaces();
        }
    }

    /// The same with most items at the start of a line, where salvage cuts.
    pub fn lines(&mut self, most: usize) {
        for _ in 0..self.random.length(most) {
            self.item();
            if self.random.one_in(5) {
                self.spaces();
            } else {
                self.put_any(&["\n", "\n", "\r\n", "\n\n"]);
            }
        }
    }

    fn item(&mut self) {
        match self.random.below(20) {
            0..=10 => self.entry(),
            11..=13 => self.strings(),
            14..=15 => self.preamble(),
            16 => self.comment_item(),
            17 => self.line_comment(),
            _ => self.junk(),
        }
    }

    fn put(&mut self, text: &str) {
        self.out.extend_from_slice(text.as_bytes());
    }

    fn put_any(&mut self, from: &[&str]) {
        let text = self.random.pick(from);
        self.put(text);
    }

    /// A token of the grammar, seldom left out or replaced.
    fn token(&mut self, text: &str) {
        if self.random.one_in(self.odd) {
            self.put_any(&[
                "", "", " ", "@", "{", "}", "\"", ",", "=", "#", "%", "é", "\n",
            ]);
        } else {
            self.put(text);
        }
    }

    fn spaces(&mut self) {
        match self.random.below(8) {
            0..=3 => {}
            4 | 5 => self.put(" "),
            6 => self.put("\n  "),
            _ => {
                for _ in 0..self.random.length(4) {
                    self.put_any(&SPACES);
                }
            }
        }
    }

    /// White space, a comment now and then, white space.
    fn gap(&mut self) {
        self.spaces();
        if self.random.one_in(10) {
            self.line_comment();
            self.spaces();
        }
    }

    fn line_comment(&mut self) {
        self.put("%");
        for _ in 0..self.random.length(4) {
            self.put_any(&["c", " ", "}", "{", "\"", "@a{", "%", "é", "\r", "=", "\\"]);
        }
        self.token("\n");
    }

    fn open(&mut self) {
        self.spaces();
        let quote = self.random.one_in(12);
        self.token(if quote { "\"" } else { "{" });
        self.spaces();
    }

    fn close(&mut self) {
        self.spaces();
        self.token("}");
    }

    /// A word in some mix of cases.
    fn word(&mut self, word: &str) {
        let mixed = self.random.one_in(3);
        for byte in word.bytes() {
            let upper = mixed && self.random.one_in(2);
            self.out.push(if upper {
                byte.to_ascii_uppercase()
            } else {
                byte
            });
        }
    }

    fn entry(&mut self) {
        self.put("@");
        self.put_any(&TYPES);
        self.open();
        self.key();
        self.spaces();
        self.token(",");
        self.gap();
        self.fields();
        // An entry's fields end only at a brace, which then closes it.
        self.close();
    }

    fn key(&mut self) {
        for _ in 0..self.random.length(8) {
            match self.random.below(12) {
                0..=7 => self.put_any(&LETTERS),
                8..=10 => self.put_any(&MORE),
                _ => self.put_any(&IN_KEYS),
            }
        }
    }

    fn fields(&mut self) {
        let count = self.random.length(8);
        for left in (0..count).rev() {
            self.ident();
            self.spaces();
            self.token("=");
            self.spaces();
            self.value();
            self.gap();
            if left > 0 || self.random.one_in(2) {
                self.token(",");
                self.gap();
            }
        }
    }

    fn ident(&mut self) {
        self.put_any(&LETTERS);
        for _ in 0..self.random.length(6) {
            match self.random.below(3) {
                0 | 1 => self.put_any(&LETTERS),
                _ => self.put_any(&MORE),
            }
        }
    }

    fn value(&mut self) {
        self.element();
        while self.random.one_in(4) {
            self.spaces();
            self.token("#");
            self.spaces();
            self.element();
        }
    }

    fn element(&mut self) {
        match self.random.below(8) {
            0..=2 => self.braced(3),
            3..=4 => self.quoted(),
            5 => self.number(),
            _ => self.ident(),
        }
    }

    fn number(&mut self) {
        for _ in 0..=self.random.length(6) {
            self.put_any(&["0", "1", "9"]);
        }
        if self.random.one_in(4) {
            self.put(".");
            for _ in 0..self.random.length(3) {
                self.put_any(&["0", "5"]);
            }
        }
    }

    fn braced(&mut self, depth: usize) {
        self.token("{");
        for _ in 0..self.random.length(8) {
            match self.random.below(12) {
                0 if depth > 0 => self.braced(depth - 1),
                1 => self.put("\""),
                _ => self.put_any(&TEXT),
            }
        }
        self.token("}");
    }

    fn quoted(&mut self) {
        self.token("\"");
        for _ in 0..self.random.length(8) {
            match self.random.below(12) {
                0 => self.put("{"),
                1 => self.put("}"),
                _ => self.put_any(&TEXT),
            }
        }
        self.token("\"");
    }

    fn strings(&mut self) {
        self.put("@");
        self.word("string");
        self.open();
        self.fields();
        self.close();
    }

    fn preamble(&mut self) {
        self.put("@");
        self.word("preamble");
        self.open();
        self.quoted();
        self.spaces();
        let quote = self.random.one_in(8);
        self.token(if quote { "\"" } else { "}" });
    }

    fn comment_item(&mut self) {
        self.put("@");
        self.word("comment");
        self.open();
        for _ in 0..self.random.length(6) {
            self.put_any(&["{", "\"", "x", "%", "\n", "@a{k,", "\\", "é", ","]);
        }
        self.token("}");
    }

    fn junk(&mut self) {
        for _ in 0..self.random.length(6) {
            self.put_any(&["}", "{", "\"", "x", "\\", "é", ",", "=", "\0", "1", "#"]);
        }
    }
}
