//! Literals: all short ones, every command and accent, random ones, deep and long ones, and places
//! that are none.

use cases::literals::{
    break_literal, Literals, ACCENTS, ALPHABET, AROUND, COMMANDS, GIVEN, PARTS, TAILS, TOKENS,
};
use cases::symbols::SEQUENCES;
use cases::Random;
use oracle::{LEAST_SCRATCH, LONGEST_FILE, LONGEST_LITERAL};

use crate::exhaustive;
use crate::judge::Judge;
use crate::resolves::{Asked, Resolves};

/// ICU's answers: a line is a letter, a mark and what they compose to.
const COMPOSED: &str = include_str!("../../../crates/compose_cases/stdout");

/// Letters that compose with nothing, or are not what they look like.
const OTHERS: &str = "bfqxBQ17.-'\"{}\\$ ıȷæøßłéạ漢😀\u{300}\u{301}\u{338}\u{AC00}\u{1100}\u{FFFD}";

/// Where a character is put to see its class: behind a backslash, in a name and behind it, as the
/// argument of an accent, in braces or not, and alone.
const CHARACTER_PLACES: [(&str, &str); 7] = [
    ("\\", "x"),
    ("\\a", "x"),
    ("\\'", "x"),
    ("\\c", "x"),
    ("\\'{", "}"),
    ("\\a{", "\n}"),
    ("a", "\n"),
];

/// How many arguments may be open at once.
const DEEPEST: usize = 64;

/// Every string of at most five (quick: three) characters of the alphabet.
pub fn short(judge: &mut Judge, long: bool) {
    strings(judge, &ALPHABET, if long { 5 } else { 3 });
}

/// Every string of at most four (quick: three) commands, braces and letters.
pub fn tokens(judge: &mut Judge, long: bool) {
    strings(judge, &TOKENS, if long { 4 } else { 3 });
}

/// Every string of at most so many of the symbols.
fn strings(judge: &mut Judge, symbols: &[&str], most: usize) {
    let mut resolves = Resolves::new();
    exhaustive::extend(&mut Vec::new(), symbols, most, &mut |literal| {
        let literal = std::str::from_utf8(literal).expect("the symbols are text");
        resolves.check(judge, literal);
    });
}

/// Every command and what only looks like one, with everything that may stand behind a name, in
/// everything that it may stand in.
pub fn commands(judge: &mut Judge) {
    let mut resolves = Resolves::new();
    for name in COMMANDS.into_iter().chain(ACCENTS) {
        for name in like(name) {
            for tail in TAILS {
                for (before, after) in AROUND {
                    resolves.check(judge, &format!("{before}\\{name}{tail}{after}"));
                }
            }
        }
    }
}

/// A name, and names that differ from it in a letter.
fn like(name: &str) -> Vec<String> {
    let mut names = vec![name.to_string()];
    if name.len() > 1 && name.is_ascii() {
        let (first, rest) = name.split_at(1);
        let (most, last) = name.split_at(name.len() - 1);
        names.push(most.into());
        names.push(rest.into());
        names.push(format!("{name}{last}"));
        names.push(name.to_ascii_uppercase());
        names.push(name.to_ascii_lowercase());
        names.push(format!("{}{rest}", (first.as_bytes()[0] ^ 1) as char));
        names.push(format!("{most}{}", (last.as_bytes()[0] ^ 1) as char));
    }
    names
}

/// Each accent over every letter that composes with some mark, and over others.
pub fn accents(judge: &mut Judge) {
    let mut resolves = Resolves::new();
    for accent in ACCENTS {
        for letter in letters() {
            for (before, after) in GIVEN {
                resolves.check(judge, &format!("\\{accent}{before}{letter}{after}"));
            }
        }
    }
}

fn letters() -> Vec<char> {
    let letter = |line: &str| {
        let number = u32::from_str_radix(line.split(' ').next()?, 16).ok()?;
        char::from_u32(number)
    };
    let lines = COMPOSED.lines().filter(|line| !line.ends_with("compose"));
    let mut letters: Vec<char> = lines.filter_map(letter).chain(OTHERS.chars()).collect();
    letters.sort();
    letters.dedup();
    letters.retain(is_known);
    letters
}

/// Whether the composition that the Rust is compiled with has all there is of a letter.
fn is_known(letter: &char) -> bool {
    !oracle::LATER.contains(letter)
}

/// Characters where their class is asked for.
pub fn characters(judge: &mut Judge, long: bool) {
    let mut resolves = Resolves::new();
    for c in exhaustive::some_characters(long).filter(is_known) {
        for (before, after) in CHARACTER_PLACES {
            resolves.check_once(judge, &format!("{before}{c}{after}"));
        }
    }
}

/// Random literals by grammar, whole and broken in up to three places.
pub fn drawn(judge: &mut Judge, seed: u64, long: bool) {
    let mut random = Random::new(seed, 13);
    let (mut resolves, mut literal) = (Resolves::new(), String::new());
    for turn in 0..if long { 300_000 } else { 3_000 } {
        draw(&mut random, &mut literal, [usize::MAX, 30][turn % 2]);
        resolves.check(judge, &literal);
        for _ in 0..3 {
            break_literal(&mut random, &mut literal);
            resolves.check(judge, &literal);
        }
    }
}

/// Random literals with every kind of room.
pub fn rooms(judge: &mut Judge, seed: u64, long: bool) {
    let mut random = Random::new(seed, 14);
    let (mut resolves, mut literal) = (Resolves::new(), String::new());
    for _ in 0..if long { 8_000 } else { 80 } {
        draw(&mut random, &mut literal, 100);
        resolves.check_rooms(judge, &literal);
    }
}

fn draw(random: &mut Random, out: &mut String, odd: usize) {
    out.clear();
    Literals { random, out, odd }.content(10, 6);
}

/// Arguments inside each other around the deepest. 01: "the 65th argument brace open at once" is
/// refused, and "65 arguments left open give 3".
pub fn deep(judge: &mut Judge, seed: u64, long: bool) {
    let mut resolves = Resolves::new();
    for name in ["P", "x", "'", "o", "c", "-", "copyright", "LaTeX", "emph"] {
        for depth in DEEPEST - 1..=DEEPEST + 2 {
            for (before, after) in [
                ("", ""),
                ("a", "b"),
                ("{", "}"),
                ("{{a}", "b}"),
                ("$a$", " "),
            ] {
                nested(judge, &mut resolves, depth, |_| Level {
                    before: before.into(),
                    name: name.into(),
                    after: after.into(),
                });
            }
        }
    }
    deep_neighbours(judge, &mut resolves);
    let mut random = Random::new(seed, 15);
    for _ in 0..if long { 4_000 } else { 40 } {
        let depth = DEEPEST - 4 + random.below(10);
        nested(judge, &mut resolves, depth, |at| level(&mut random, at));
    }
}

/// Parts of content that take nothing of what follows them; the last have arguments.
const SOUND: [&str; 16] = [
    "a",
    "é",
    "漢.",
    " ",
    "\n",
    "--",
    "{a}",
    "$x$",
    "\\%",
    "\\ ",
    "\\o ",
    "\\'e",
    "{\\i}",
    "\\emph{a}",
    "\\'{e}{\\o{x}}",
    "\\copyright{{$a$}}",
];
const WITHOUT_ARGUMENTS: usize = 13;

/// What stands before an argument's command, its name, and what stands behind its closing brace.
struct Level {
    before: String,
    name: String,
    after: String,
}

/// A random level, inside so many others. Only where it cannot be too deep may it have arguments of
/// its own.
fn level(random: &mut Random, depth: usize) -> Level {
    let names = [
        ACCENTS[random.below(ACCENTS.len())],
        "emph",
        "copyright",
        "x",
    ];
    let name = names[random.below(names.len())].to_string();
    let sound = match depth + 1 < DEEPEST {
        true => &SOUND[..],
        false => &SOUND[..WITHOUT_ARGUMENTS],
    };
    let mut drawn = || {
        let parts = (0..random.below(4)).map(|_| random.pick(sound));
        parts.collect::<String>()
    };
    Level {
        before: drawn(),
        name,
        after: drawn(),
    }
}

/// A literal of so many levels, closed, closed once too often, and with faults behind the deepest
/// argument, in front of all and at the end.
fn nested(
    judge: &mut Judge,
    resolves: &mut Resolves,
    depth: usize,
    mut level: impl FnMut(usize) -> Level,
) {
    let (mut opening, mut closing, mut too_deep) = (String::new(), Vec::new(), None);
    for at in 0..depth {
        let Level {
            before,
            name,
            after,
        } = level(at);
        opening += &format!("{before}\\{name}");
        if at == DEEPEST {
            // All that comes before is sound, so that this brace is what is refused first.
            too_deep = Some(opening.len());
        }
        opening.push('{');
        closing.push(format!("}}{after}"));
    }
    let closed = |levels: &[String]| levels.iter().rev().cloned().collect::<String>();
    let (all, all_but_one) = (closed(&closing), closed(&closing[1..]));
    let mut check = |literal: &str| match too_deep {
        Some(brace) => resolves.check_too_deep(judge, literal, brace),
        None => resolves.check(judge, literal),
    };
    check(&format!("{opening}{all}"));
    check(&format!("{opening}{all}}}"));
    check(&format!("{opening}a}}$x{}", &all[1..]));
    // The end of the first argument is sought before anything is read inside.
    resolves.check(judge, &format!("{opening}{all_but_one}"));
    // What stands before comes first.
    resolves.check(judge, &format!("}}{opening}{all}"));
}

/// Deep arguments one behind the other, and braces that are no argument's.
fn deep_neighbours(judge: &mut Judge, resolves: &mut Resolves) {
    let nest = |depth: usize| "\\x{".repeat(depth) + &"}".repeat(depth);
    let all = nest(DEEPEST);
    resolves.check(judge, &all.repeat(5));
    let braces = "{".repeat(200) + &all + &"}".repeat(200);
    resolves.check(judge, &braces);
    let inside = "\\x{{".repeat(DEEPEST) + &"}}".repeat(DEEPEST);
    resolves.check(judge, &inside);
    let before = all.len() + 3 * DEEPEST + 2;
    resolves.check_too_deep(judge, &(all + &nest(DEEPEST + 1)), before);
    let inside = "\\x{{".repeat(DEEPEST + 1) + &"}}".repeat(DEEPEST + 1);
    resolves.check_too_deep(judge, &inside, 4 * DEEPEST + 2);
    // What only looks like an argument: white space before the brace, an escape, math.
    for name in ["\\x ", "\\' ", "\\\\", "\\%", "$a$"] {
        let literal = format!("{name}{{").repeat(DEEPEST + 2) + &"}".repeat(DEEPEST + 2);
        resolves.check(judge, &literal);
    }
}

/// Literals of one part over and over, in arguments or not, up to the longest and past it.
pub fn lengths(judge: &mut Judge, long: bool) {
    let mut resolves = Resolves::new();
    let longest = [LONGEST_LITERAL - 1, LONGEST_LITERAL, LONGEST_LITERAL + 1];
    let some = [0, 1, 255, 256, 257, LONGEST_LITERAL / 2];
    for part in PARTS {
        for length in some.into_iter().chain(longest) {
            // The part may have an argument of its own.
            for (depth, turns) in [(0, 6), (1, 2), (DEEPEST - 1, 2)] {
                let literal = filled(part, length, depth);
                if long && length <= 257 {
                    resolves.check_rooms(judge, &literal);
                }
                // The room takes turns.
                for _ in 0..turns {
                    resolves.check(judge, &literal);
                }
            }
        }
    }
    // 1 comes before what the literal has wrong.
    for fault in ["}", "$", "\\", "\\x{"] {
        for length in longest {
            resolves.check(judge, &(filled("a", length - fault.len(), 0) + fault));
            resolves.check(
                judge,
                &(fault.to_string() + &filled("a", length - fault.len(), 0)),
            );
        }
    }
}

/// What ends a run of plain text, or does not, in the tests of blocks.
const IN_PLAIN: [&str; 22] = [
    " ",
    "  ",
    "-",
    "--",
    "~",
    "\\",
    "\\'",
    "\\emph{",
    "{",
    "}",
    "$",
    "$x$",
    "\t",
    "\n",
    " \n",
    "\u{7f}",
    "\u{e9}",
    " \u{e9}",
    "\u{a0}",
    " \u{a0}",
    "\u{2003}",
    "\u{1f4d6} ",
];

/// A part at every place of a plain text, as verbatim or not: text is gone over by blocks of sixteen
/// bytes, and each place of a block, and each length of the rest behind the last one, is to come out
/// as byte by byte.
pub fn blocks(judge: &mut Judge, long: bool) {
    let mut resolves = Resolves::new();
    for length in 0..=if long { 100 } else { 36 } {
        for place in 0..=length {
            for part in IN_PLAIN {
                let literal = "x".repeat(place) + part + &"y".repeat(length - place);
                resolves.check(judge, &literal);
            }
        }
    }
}

/// A literal of just this length, in bytes, if it is long enough for its arguments.
fn filled(part: &str, length: usize, depth: usize) -> String {
    let around = 4 * depth;
    let room = length.saturating_sub(around);
    let fill = part.repeat(room / part.len());
    "\\x{".repeat(depth) + &"a".repeat(room % part.len()) + &fill + &"}".repeat(depth)
}

/// All places of short files, in characters and outside, and far outside; files that are not UTF-8;
/// and scratch of every length around the least.
pub fn places(judge: &mut Judge) {
    let mut resolves = Resolves::new();
    for file in ["aé漢😀\\'e{x}", "", "}", "\\x{"] {
        for asked in some_places(file.len()) {
            resolves.check_file(judge, file.as_bytes(), asked);
        }
    }
    for sequence in SEQUENCES {
        for file in [sequence.to_vec(), [b"a}", sequence, b"b"].concat()] {
            for asked in some_places(file.len()) {
                resolves.check_file(judge, &file, asked);
            }
        }
    }
}

fn some_places(length: usize) -> Vec<Asked> {
    let far = [
        1 << 24,
        1 << 31,
        1 << 32,
        (1 << 32) + 1,
        1 << 63,
        usize::MAX,
    ];
    let places: Vec<usize> = (0..length + 2).chain(far).collect();
    let scratch = [0, 1, LEAST_SCRATCH - 1, LEAST_SCRATCH, LEAST_SCRATCH + 1];
    let mut all = Vec::new();
    for &from in &places {
        for &to in &places {
            for scratch in scratch {
                for verbatim in [0, 1] {
                    let span = (from, to);
                    all.push(Asked {
                        span,
                        verbatim,
                        scratch,
                    });
                }
            }
        }
    }
    all
}

/// Files as long as they may be and longer, with literals at their ends.
pub fn files(judge: &mut Judge) {
    let mut resolves = Resolves::new();
    for length in LONGEST_FILE - 1..=LONGEST_FILE + 1 {
        for end in ["\\'{e}", "}", "{a}$b$"] {
            let mut file = vec![b' '; length - end.len()];
            file.extend_from_slice(end.as_bytes());
            for (from, to) in [
                (length - end.len(), length),
                (0, 1),
                (0, length),
                (length, 0),
            ] {
                for scratch in [0, LEAST_SCRATCH] {
                    let asked = Asked {
                        span: (from, to),
                        verbatim: 0,
                        scratch,
                    };
                    resolves.check_file(judge, &file, asked);
                }
            }
        }
    }
}

/// The literals of a file, each with some of what stands around it.
pub fn of_file(judge: &mut Judge, resolves: &mut Resolves, file: &[u8]) {
    const AROUND: usize = 16;
    let Ok(rows) = oracle::salvage(file) else {
        return;
    };
    let literals = rows
        .iter()
        .filter(|row| row.kind == oracle::Kind::Literal as u32);
    for row in literals {
        let (start, end) = (row.start as usize, row.end as usize);
        let from = boundary(file, start.saturating_sub(AROUND));
        let to = boundary(file, (end + AROUND).min(file.len()));
        for verbatim in [0, 1] {
            let asked = Asked {
                span: (start - from, end - from),
                verbatim,
                scratch: LEAST_SCRATCH,
            };
            resolves.check_file(judge, &file[from..to], asked);
        }
    }
}

/// This place, or the next before it that is no part of a character.
fn boundary(file: &[u8], mut place: usize) -> usize {
    while file.get(place).is_some_and(|byte| byte & 0xC0 == 0x80) {
        place -= 1;
    }
    place
}
