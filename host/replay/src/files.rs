//! The choice of files.

use std::collections::HashSet;

use cases::symbols::{AROUND, HEADS, PARTS, SEQUENCES, WIDER};
use cases::{damage, Bytes, Grammar, Random};

use crate::case::{Case, List};

const SEED: u64 = 3;

/// Every file is shorter.
const LONGEST: usize = 200;

/// 01's edge table for files, the cases of the issue, and one of each number and place.
const NAMED: [&[u8]; 40] = [
    b"",
    b"@a{k,}",
    b"@a{k}",
    b"@a{k,t=}",
    b"@a{k,y=1.2.3}",
    b"@a{k,y=12",
    b"@a{k,t={x\\}y} }",
    b"@preamble{\"x\"\"",
    b"@a{\n@b{k,}",
    b"@a{k,t={x},%c",
    b"@a{k,t={x},%c\n",
    b"@a\"k,}",
    b"50% @a{k,}",
    b"a@b.c",
    b"\xE2\x82\x40\x61\x7B",
    b"@a{k,t={x}}",
    b"@a{k,t={x}\"",
    b"@a{k,t=\"x\" # y # 12 }",
    b"@a{k,%c\n%d\n}",
    b"@a{k,%c\nt=1%c\n,%c\n}",
    b"@a{k,t=1%c\n%d\n}",
    b"@STRING{a=1,b={x}}@a{k,t=a#b}",
    b"@string{}",
    b"@string\"a=1}",
    b"@comment{a{b}c}",
    b"@COMMENT\"a\"b}",
    b"@comment{",
    b"@Preamble{\"x\" # \"y\"}",
    b"@preamble{\"\\\"\"}@preamble{ \" # \" }",
    b"@preamble{x}",
    b"@a{k,t{x}}",
    b"@a k",
    b"@",
    b"@a{,}",
    b"@a{k,t=1.}",
    b"@a{k,t=.1}",
    b"@a{k,=1}",
    b"@a{k,t={x}u={y}}",
    b"@a{k,t={{x}",
    b"\xEF\xBB\xBF@a{k,}",
];

/// Where an opening brace, a closing one, a comma, a quotation mark or an equals sign is looked for; and
/// what is none of them: nothing, and characters of two, three and four bytes.
const BEFORE: [&str; 6] = [
    "@a ",
    "@preamble{\"x\"",
    "@a{k ",
    "@a{k,t={x}",
    "@preamble{",
    "@a{k,t ",
];
const CULPRITS: [&str; 4] = ["", "é", "漢", "😀"];

/// Repeats of a part, from none to as many as the length allows.
const REPEATS: [usize; 9] = [0, 1, 2, 15, 16, 17, 127, 128, 180];

/// Adds the files to a list.
pub fn add_to(list: &mut List) {
    let seen = HashSet::new();
    let mut files = Files { list, seen };
    NAMED.iter().for_each(|file| files.add(file));
    files.culprits();
    files.tails();
    files.characters();
    files.sequences();
    files.values(&mut b"@a{k,t=".to_vec(), 5);
    files.repeats();
    files.drawn();
}

struct Files<'a> {
    list: &'a mut List,
    seen: HashSet<Vec<u8>>,
}

impl Files<'_> {
    /// Adds a file that is short enough and not there yet.
    fn add(&mut self, file: &[u8]) {
        if file.len() < LONGEST && self.seen.insert(file.to_vec()) {
            self.list.add(&Case::File(file));
        }
    }

    /// Each as the last character of the file, and not.
    fn culprits(&mut self) {
        for before in BEFORE {
            for culprit in CULPRITS {
                self.add(format!("{before}{culprit}").as_bytes());
                self.add(format!("{before}{culprit}é}}").as_bytes());
            }
        }
    }

    fn tails(&mut self) {
        let mut random = Random::new(SEED, 1);
        for head in HEADS {
            self.add(head);
            for first in WIDER {
                self.add(&[head, first].concat());
                for second in WIDER {
                    if random.one_in(4) {
                        self.add(&[head, first, second].concat());
                    }
                }
            }
        }
    }

    /// ASCII, and of every class of more bytes the characters on both sides of each edge.
    fn characters(&mut self) {
        let edges = [
            0x80, 0x85, 0x86, 0x9F, 0xA0, 0xA1, 0x7FF, 0x800, 0x1680, 0x1681, 0x1FFF, 0x2000,
            0x200A, 0x200B, 0x2027, 0x2028, 0x2029, 0x202A, 0x202F, 0x2030, 0x205F, 0x2060, 0x3000,
            0x3001, 0xD7FF, 0xE000, 0xFEFF, 0xFFFF, 0x10000, 0x10FFFF,
        ];
        for c in (0..0x80).chain(edges).filter_map(char::from_u32) {
            for (before, after) in AROUND {
                self.add(format!("{before}{c}{after}").as_bytes());
            }
        }
    }

    fn sequences(&mut self) {
        for first in SEQUENCES {
            self.add(first);
            self.add(&[b"@a{k,t={x", first, b"}}"].concat());
            self.add(&[b"@a{k,", first].concat());
            for second in SEQUENCES {
                self.add(&[first, second, b"@a{k"].concat());
            }
        }
    }

    /// Every string of at most `left` characters of a number and what may follow it.
    fn values(&mut self, file: &mut Vec<u8>, left: usize) {
        self.add(file);
        if left == 0 {
            return;
        }
        for byte in *b"1.}" {
            file.push(byte);
            self.values(file, left - 1);
            file.pop();
        }
    }

    fn repeats(&mut self) {
        for (before, part, after) in PARTS {
            for times in REPEATS {
                let middle = part.repeat(times);
                self.add(&[before, &middle].concat());
                self.add(&[before, &middle, after].concat());
            }
        }
    }

    fn drawn(&mut self) {
        let mut random = Random::new(SEED, 2);
        let (mut file, mut other) = (Vec::new(), Vec::new());
        for turn in 0..700 {
            std::mem::swap(&mut file, &mut other);
            let odd = [usize::MAX, 30][turn % 2];
            file.clear();
            let (random, out) = (&mut random, &mut file);
            Grammar { random, out, odd }.file(4);
            self.add(&file);
            let mut copy = file.clone();
            damage(random, &mut copy, &other);
            self.add(&copy);
            damage(random, &mut copy, &other);
            self.add(&copy);
            copy.clear();
            let out = &mut copy;
            Bytes { random, out }.file(48);
            self.add(&copy);
        }
    }
}
