//! Literals to try a resolver on: what content tells apart, TeX's commands and accents, literals
//! drawn at random by grammar, and what breaks them.

use crate::Random;

/// One of each class that content tells apart, for all short strings: what begins a command, braces
/// and dollars, hyphens, blanks and line ends, letters that name commands and accents, a letter of
/// two bytes, what a backslash escapes, a control character, and a mark that is all of a name.
pub const ALPHABET: [&str; 16] = [
    "\\", "{", "}", "$", "-", " ", "\n", "a", "c", "i", "o", "'", "^", "é", "%", "\u{1}",
];

/// Whole commands, and what may stand around them.
pub const TOKENS: [&str; 20] = [
    "\\'",
    "\\c",
    "\\o",
    "\\i",
    "\\-",
    "\\ss",
    "\\x",
    "\\copyright",
    "\\LaTeX",
    "\\~",
    "\\\\",
    "{",
    "}",
    " ",
    "\u{3000}",
    "a",
    "ȷ",
    "$",
    "--",
    "\n",
];

/// Every name that `execute_command` of resolve.rs knows but the accents'; the last three are none.
pub const COMMANDS: [&str; 74] = [
    "LaTeX",
    "TeX",
    "textendash",
    "textemdash",
    "textquotesingle",
    "textquotedblleft",
    "textquotedblright",
    "textquoteleft",
    "textquoteright",
    "textquotestraightdblbase",
    "quotedblbase",
    "textquotestraightbase",
    "quotesinglbase",
    "textquotedbl",
    "textasciicircum",
    "textasciigrave",
    "textasciitilde",
    "textasteriskcentered",
    "textbackslash",
    "textbar",
    "textbraceleft",
    "textbraceright",
    "textbullet",
    "textdagger",
    "textdaggerdbl",
    "textdollar",
    "textless",
    "textgreater",
    "textexclamdown",
    "textquestiondown",
    "textordfeminine",
    "textordmasculine",
    "textperiodcentered",
    "textregistered",
    "texttrademark",
    "textsection",
    "textunderscore",
    "textvisiblespace",
    "guillemotleft",
    "guillemotright",
    "guilsinglleft",
    "guilsinglright",
    "aa",
    "AA",
    "ae",
    "AE",
    "dh",
    "DH",
    "dj",
    "DJ",
    "ng",
    "NG",
    "l",
    "L",
    "i",
    "oe",
    "OE",
    "O",
    "ss",
    "SS",
    "th",
    "TH",
    "P",
    "textparagraph",
    "S",
    "copyright",
    "ddag",
    "dots",
    "textellipsis",
    "pounds",
    "-",
    "emph",
    "j",
    "textbf",
];

/// The names of the accents, in the order of their marks.
pub const ACCENTS: [&str; 17] = [
    "`", "´", "'", "^", "~", "=", "u", ".", "\"", "r", "H", "v", "d", "c", "k", "b", "o",
];

/// What may stand behind the name of a command: nothing, blanks and braces in every order, what goes
/// on a name or ends it, and arguments.
pub const TAILS: [&str; 30] = [
    "", " ", "  ", "\n", "\u{3000}", "{", "{}", "{a}", "{ }", "{\n}", " {", " {}", " {a}", "\n{a}",
    "}", " }", "a", " a", "1", ".", " .", "-", " -", "\\", " \\", "\\i", "{\\i}", "é", " é", "$x$",
];

/// What a command may stand in.
pub const AROUND: [(&str, &str); 7] = [
    ("", ""),
    ("a", "b"),
    ("{", "}"),
    ("{{", "}a}"),
    ("\\emph{", "}"),
    ("\\'{a", "}"),
    ("$", "$"),
];

/// How a letter may be given to an accent: what stands between the accent's name and the letter, and
/// behind it.
pub const GIVEN: [(&str, &str); 9] = [
    ("", ""),
    (" ", "b"),
    ("{", "}"),
    ("{a", "}b"),
    ("{", " }"),
    ("{{", "}}"),
    ("{$", "$}"),
    (" {", "}"),
    ("{\\'{", "}}"),
];

/// What a long literal is made of: text that grows most, chunks that are most, and what costs most.
pub const PARTS: [&str; 30] = [
    "a",
    "é",
    "😀",
    " ",
    "\n",
    "-",
    "--",
    "---",
    "\\ ",
    "\\\n",
    "\\\u{3000}",
    "\\\u{1}",
    "\\\u{80}",
    "\\x",
    "\\x ",
    "\\{",
    "\\'a",
    "\\'{a}",
    "\\'",
    "\\c c",
    "\\o",
    "\\SS",
    "\\emph{a}",
    "\\copyright{a}",
    "\\textquotestraightdblbase ",
    "{}",
    "{a}b",
    "$$",
    "$a$b",
    "\\u{\\i}\\H{ȷ}",
];

/// Characters for random text.
const CHARACTERS: [&str; 44] = [
    "a", "b", "c", "e", "i", "o", "u", "A", "I", "O", "1", ".", ",", ":", "-", "'", "\"", "`", "~",
    "^", "%", "&", "#", "_", "=", "\0", "\u{1}", "\u{7F}", "\u{85}", "\u{A0}", "é", "ı", "ȷ", "´",
    "\u{301}", "ạ", "\u{200B}", "\u{2028}", "\u{FFFD}", "漢", "😀", "\t", "\r\n", "/",
];

/// White space.
const BLANKS: [&str; 8] = [" ", " ", "  ", "\n", "\n  ", "\t", "\u{A0}", "\u{3000}"];

/// What stands for itself behind a backslash, or is white space or a control character there.
const ESCAPED: [&str; 16] = [
    "\\", "#", "&", "%", "$", "_", ":", " ", "\n", "\u{3000}", "\u{1}", "\u{85}", "\u{9F}",
    "{a\\}", "~", "^",
];

/// What breaks content: braces, dollars and backslashes where they fit nothing.
const ODD: [&str; 10] = [
    "}", "{", "$", "\\", "\\{", "\\}", "\\x{", "\\'{", "{$", "$}",
];

/// Writes literals by grammar.
pub struct Literals<'a> {
    pub random: &'a mut Random,
    pub out: &'a mut String,
    /// What breaks content comes once in so many parts.
    pub odd: usize,
}

impl Literals<'_> {
    /// Content of at most so many parts, with at most so much inside each other.
    pub fn content(&mut self, most: usize, depth: usize) {
        for _ in 0..self.random.length(most) {
            self.part(most, depth);
        }
    }

    fn part(&mut self, most: usize, depth: usize) {
        if self.random.one_in(self.odd) {
            return self.one_of(&ODD);
        }
        match self.random.below(10) {
            0 | 1 => self.text(6),
            2 => self.one_of(&BLANKS),
            3 => {
                let hyphens = 1 + self.random.length(6);
                self.out.push_str(&"-".repeat(hyphens));
            }
            4 => {
                self.out.push('\\');
                self.one_of(&ESCAPED);
            }
            5 => self.braces(most, depth),
            6 => {
                self.out.push('$');
                self.text(4);
                self.out.push('$');
            }
            _ => self.command(most, depth),
        }
    }

    pub fn text(&mut self, most: usize) {
        for _ in 0..self.random.length(most) {
            self.one_of(&CHARACTERS);
        }
    }

    fn one_of(&mut self, some: &[&str]) {
        let one = self.random.pick(some);
        self.out.push_str(one);
    }

    fn braces(&mut self, most: usize, depth: usize) {
        self.out.push('{');
        if depth > 0 {
            self.content(most / 2, depth - 1);
        }
        self.out.push('}');
    }

    fn command(&mut self, most: usize, depth: usize) {
        self.name();
        match self.random.below(6) {
            0 => {}
            1 => self.one_of(&BLANKS),
            2 => self.one_of(&CHARACTERS),
            3 => {
                self.one_of(&BLANKS);
                self.braces(most, depth);
            }
            _ => self.braces(most, depth),
        }
    }

    /// A backslash and the name of a command: known, an accent's, or neither.
    pub fn name(&mut self) {
        self.out.push('\\');
        match self.random.below(8) {
            0 | 1 => self.one_of(&COMMANDS),
            2 => {
                let name = self.random.pick(&COMMANDS);
                let cut = self.random.below(name.len() + 1);
                self.out.push_str(&name[..cut]);
                self.one_of(&CHARACTERS);
            }
            _ => self.one_of(&ACCENTS),
        }
    }
}

/// Changes a literal in one place.
pub fn break_literal(random: &mut Random, literal: &mut String) {
    let at = boundary(random, literal);
    match random.below(5) {
        0 => literal.truncate(at),
        1 => literal.insert_str(at, random.pick(&ODD)),
        2 => literal.insert_str(at, random.pick(&CHARACTERS)),
        3 => {
            let end = boundary(random, literal);
            let part = literal[at.min(end)..at.max(end)].to_string();
            literal.insert_str(at, &part);
        }
        _ if at < literal.len() => drop(literal.remove(at)),
        _ => {}
    }
}

/// A place that cuts no character.
fn boundary(random: &mut Random, text: &str) -> usize {
    let mut place = random.below(text.len() + 1);
    while !text.is_char_boundary(place) {
        place -= 1;
    }
    place
}
