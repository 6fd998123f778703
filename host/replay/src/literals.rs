//! The choice of literals.

use std::collections::HashSet;

use cases::literals::{break_literal, Literals, ACCENTS, COMMANDS, TAILS, TOKENS};
use cases::Random;

use crate::case::{Case, List, Literal};

const SEED: u64 = 3;

/// Every file is shorter.
const LONGEST: usize = 100;

/// What an accent may be given.
const GIVEN: [&str; 9] = ["", "e", " e", "{e}", "{}", "{\\i}", "{ae}", " {e}", "{$x$}"];

/// Literals in the middle of their files: the file, and where the literal starts and ends. Some of
/// these places are none, and some of these files are not UTF-8.
const PLACED: [(&[u8], u16, u16); 16] = [
    (b"@a{k,t={\\'e}}", 8, 11),
    (b"@a{k,t={a}b}", 8, 11),
    (b"@a{k,t={$x}}", 8, 10),
    (b"a{b}c", 1, 4),
    (b"a{b}c", 2, 2),
    (b"a{b}c", 5, 5),
    (b"a\\'e", 1, 3),
    (b"\\x{a}}", 0, 5),
    ("aé漢😀".as_bytes(), 1, 6),
    ("aé漢😀".as_bytes(), 2, 6),
    ("aé漢😀".as_bytes(), 1, 5),
    ("aé漢😀".as_bytes(), 6, 1),
    ("aé漢😀".as_bytes(), 10, 11),
    (b"abc", 0, u16::MAX),
    (b"ab\xFF", 0, 1),
    (b"a\xE2\x82", 2, 1),
];

/// Adds the literals to a list.
pub fn add_to(list: &mut List) {
    let seen = HashSet::new();
    let mut literals = Chosen { list, seen };
    literals.commands();
    literals.accents();
    literals.pairs();
    literals.drawn();
    for (file, start, end) in PLACED {
        literals.put(file, start, end, false);
    }
}

struct Chosen<'a> {
    list: &'a mut List,
    seen: HashSet<(Vec<u8>, bool)>,
}

impl Chosen<'_> {
    /// Adds a literal that is a file of its own, short enough and not there yet.
    fn add(&mut self, literal: &str, is_verbatim: bool) {
        let is_new = self.seen.insert((literal.into(), is_verbatim));
        if literal.len() < LONGEST && is_new {
            self.put(literal.as_bytes(), 0, literal.len() as u16, is_verbatim);
        }
    }

    fn put(&mut self, file: &[u8], start: u16, end: u16, is_verbatim: bool) {
        self.list.add(&Case::Literal(Literal {
            file,
            start,
            end,
            is_verbatim,
        }));
    }

    /// Every command bare, with an argument, and with a letter more; and all that may stand behind a
    /// name, behind three.
    fn commands(&mut self) {
        for name in COMMANDS {
            self.add(&format!("\\{name}"), false);
            self.add(&format!("\\{name}{{a}}b"), false);
            self.add(&format!("\\{name}s c"), false);
        }
        for name in ["emph", "c", "i"] {
            for tail in TAILS {
                self.add(&format!("\\{name}{tail}"), false);
            }
        }
        for tail in TAILS {
            self.add(&format!("\\emph{tail}"), true);
        }
    }

    fn accents(&mut self) {
        for accent in ACCENTS {
            for given in GIVEN {
                self.add(&format!("\\{accent}{given}"), false);
            }
        }
    }

    fn pairs(&mut self) {
        for first in TOKENS {
            for second in TOKENS {
                self.add(&format!("{first}{second}"), false);
            }
        }
    }

    fn drawn(&mut self) {
        let mut random = Random::new(SEED, 3);
        let mut out = String::new();
        for turn in 0..120 {
            out.clear();
            let odd = [usize::MAX, 12][turn % 2];
            let (random, literal) = (&mut random, &mut out);
            Literals {
                random,
                out: literal,
                odd,
            }
            .content(6, 3);
            self.add(&out, turn % 4 == 0);
            break_literal(random, &mut out);
            self.add(&out, false);
        }
    }
}
