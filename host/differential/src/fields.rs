//! Files with fields, to ask about one by one or all at once: names and months, chains of names and cycles, as many names as there may be and more, long
//! and deep literals, files drawn at random, rows and months that are none, and real files.

use cases::collisions::Names;
use cases::fields::{literal, name, Draft, Element, Fields as Drawing, Months, NAMES};
use cases::rows::break_rows;
use cases::symbols::SEQUENCES;
use cases::Random;
use oracle::{
    Fields, Given, DEEPEST_NAME, LEAST_SCRATCH, LONGEST_FILE, LONGEST_LITERAL, MOST_NAMES,
};

use crate::exhaustive;
use crate::judge::Judge;
use crate::lent::Tried;
use crate::values::Asks;
use crate::wholes;

/// Files that a reader takes, with what is to be looked at: the order of definitions and uses, which
/// definition counts, months that are shadowed, what is joined, cycles, and what is refused first.
const NAMED: [&str; 30] = [
    "@b{k,t=a#{y}}@string{a={x}}",
    "@string{a={x}}@b{k,t=a#{y}}",
    "@b{k,t=a}",
    "@b{k,t=a}@string{A={x}}",
    "@string{a={x}}@string{a={y}}@b{k,t=a}@string{a={z}}",
    "@string{a={x}}@string{b=a#a}@string{a={y}}@b{k,t=b#a}",
    "@string{a=b}@string{b=c}@string{c={{x}}#{y}}@b{k,t=a#c#{z}}",
    "@string{a={{x}}}@b{k,t={{y}}#a#{{z}}#a}",
    "@string{a={$x$}}@b{k,t=a#a#{$y$}}",
    "@b{k,t=may#{ }#jan#\" 5\"}",
    "@string{may={x}}@b{k,t=may#jan}",
    "@string{jan=may}@b{k,t=jan#may}",
    "@string{may=may}@b{k,t=may}",
    "@string{jan=may#may}@string{may=dec}@b{k,t=jan}",
    "@b{k,t=May}",
    "@b{k,t=MAY#may}",
    "@string{a=a}@b{k,t=a}",
    "@string{a=b}@string{b=a}@b{k,t=a#{x}}",
    "@string{a={x}#b}@string{b={y}#c}@string{c=b#a}@b{k,t={z}#a}",
    "@string{a=a}@string{a={x}}@b{k,t=a}",
    "@string{a={x}}@string{a=a}@b{k,t={y}#a}",
    "@string{a=nothing#a}@b{k,t=a}",
    "@string{a={$}#a}@b{k,t=a}",
    "@string{a=\"}\"#a}@b{k,t=\"{\\}\"#a}",
    "@string{a={\\url$}}@b{k,url=a#{\\%--$}}",
    "@string{\u{e9}={x}}@string{e\u{301}={y}}@b{k,t=\u{e9}#e\u{301}#\u{e8}}",
    "@string{\u{6f22}={x}}@b{k,t=\u{6f22}#\u{6f22}\u{5b57}}",
    "@b{k,y=1998#a,z=12.5}@string{a=1}",
    "@string{a={}}@b{k,t=a#a,u={}#a#{},v={{}}#a}",
    "@string{a={\\'}}@b{k,t=a#{e}#{\\'}#a}",
];

/// A file that the Rust reads, with its rows.
fn read(file: &str) -> Draft {
    let rows = oracle::salvage(file.as_bytes()).expect("a file that is not too long");
    let numbers = |row: &oracle::Row| [row.kind, row.detail, row.start, row.end];
    Draft {
        file: file.into(),
        rows: rows.iter().flat_map(numbers).collect(),
    }
}

fn given<'a>(draft: &'a Draft, months: &'a Months) -> Given<'a> {
    Given {
        file: draft.file.as_bytes(),
        rows: &draft.rows,
        months: &months.numbers,
        words: &months.words,
    }
}

/// Files with names, each with several lists of months and every kind of room.
pub fn names<A: Asks>(judge: &mut Judge) {
    let mut asks = A::new();
    let mut twice = Months::default();
    twice.lend("may", "Mai");
    twice.lend("ma", "no");
    twice.lend("may", "May");
    twice.lend("", "nothing");
    twice.lend("a", "month a");
    for file in NAMED {
        let draft = read(file);
        for months in [Months::default(), Months::english(), twice.clone()] {
            asks.check(judge, given(&draft, &months), Tried::All);
            asks.check_numbers(judge, given(&draft, &months));
        }
    }
}

/// What a chain of names may end with, the last the names of the chain itself.
fn ends() -> Vec<Vec<Element>> {
    let mut ends = vec![
        vec![literal("x")],
        vec![literal("$")],
        vec![literal("{x}"), name("may")],
        vec![name("may")],
        vec![name("nothing")],
        vec![name("may"), name("nothing")],
        vec![literal("x"), name("may"), literal("}")],
    ];
    ends.extend([0, 1, 2, 15, 30, 31, 32, 33].map(|link| vec![name(format!("n{link}"))]));
    ends
}

/// Names inside each other around the deepest, defined forwards and backwards, with what stands before
/// and behind.
pub fn chains<A: Asks>(judge: &mut Judge, long: bool) {
    let (mut asks, months) = (A::new(), Months::english());
    let depths = match long {
        true => (0..=DEEPEST_NAME + 4).collect::<Vec<usize>>(),
        false => (DEEPEST_NAME - 2..=DEEPEST_NAME + 2).collect(),
    };
    for depth in depths {
        for end in ends() {
            for around in [0, 1, 2, 3] {
                for backwards in [false, true] {
                    let draft = chain(depth, &end, around, backwards);
                    asks.check(judge, given(&draft, &months), Tried::One);
                }
            }
        }
    }
}

/// So many names, each in the value of the one before it, and a field that has the first.
fn chain(depth: usize, end: &[Element], around: usize, backwards: bool) -> Draft {
    let link = |i: usize| {
        let next = match i + 1 < depth {
            true => vec![name(format!("n{}", i + 1))],
            false => end.to_vec(),
        };
        match around {
            0 => next,
            1 => [vec![literal("a")], next, vec![literal("b")]].concat(),
            // The last name is used beside each.
            2 => [vec![name(format!("n{}", depth.max(1) - 1))], next].concat(),
            _ => [next, vec![literal("{v}"), name("nothing")]].concat(),
        }
    };
    let mut draft = Draft::default();
    let mut order: Vec<usize> = (0..depth).collect();
    if backwards {
        order.reverse();
    }
    for i in order {
        draft.definition(&format!("n{i}"), &link(i));
    }
    draft.entry();
    draft.field("t", &[literal("f"), name("n0"), literal("g")]);
    draft
}

/// Counts of names around the most: flat, by doublings, and with what is refused at the same use.
pub fn counts<A: Asks>(judge: &mut Judge, long: bool) {
    let (mut asks, months) = (A::new(), Months::english());
    let most = MOST_NAMES as usize;
    let ends = [
        vec![],
        vec![literal("x")],
        vec![name("nothing")],
        vec![name("may"), name("nothing")],
        vec![literal("$")],
        vec![name("self")],
        vec![name("deep")],
        vec![name("may"), name("self")],
    ];
    let reach = if long { 6 } else { 1 };
    let parts = match long {
        true => &["may", "d0", "d3", "d11"][..],
        false => &["may", "d11"],
    };
    // The name that is too deep is also one too many.
    let both = most - DEEPEST_NAME;
    for end in ends {
        for count in (most - reach..=most + reach).chain(both - 1..=both + 1) {
            for part in parts {
                let draft = many(count, part, &end);
                let value = draft.next() - 1;
                let value = (0..=value).rev().find(|row| draft.rows[4 * row] == 5);
                let given = given(&draft, &months);
                asks.check_these(judge, given, value.into_iter(), Tried::One);
            }
        }
    }
}

/// A field that resolves so many names and then has these elements. As many as can be come by uses of
/// `part`, the rest by a month word: d0 resolves itself alone, and each next one twice the one before
/// and itself.
fn many(count: usize, part: &str, end: &[Element]) -> Draft {
    let mut draft = Draft::default();
    draft.definition("d0", &[literal("{x}")]);
    for i in 1..12 {
        let before = format!("d{}", i - 1);
        draft.definition(&format!("d{i}"), &[name(&before), name(&before)]);
    }
    draft.definition("self", &[name("self")]);
    for i in 0..DEEPEST_NAME {
        draft.definition(&format!("deep{i}"), &[name(format!("deep{}", i + 1))]);
    }
    draft.definition("deep", &[name("deep0")]);
    draft.definition(&format!("deep{DEEPEST_NAME}"), &[literal("x")]);
    let each = match part.strip_prefix('d') {
        Some(number) => (2 << number.parse::<usize>().expect("a number")) - 1,
        None => 1,
    };
    let mut elements = vec![name(part); count / each];
    elements.extend(vec![name("may"); count % each]);
    elements.extend_from_slice(end);
    draft.entry();
    draft.field("t", &elements);
    draft
}

/// Literals around the longest, in a field and in a definition, with what is refused before and behind.
pub fn literals<A: Asks>(judge: &mut Judge) {
    let (mut asks, months) = (A::new(), Months::english());
    let fault = |number: usize| [name("nothing"), literal("}"), literal("x")][number].clone();
    for length in LONGEST_LITERAL - 1..=LONGEST_LITERAL + 1 {
        for part in ["a", "é", "{a}", "$x$", "\\'e", "---", " \n", "}"] {
            let text = part.repeat(length / part.len()) + &"b".repeat(length % part.len());
            for (before, behind) in [(2, 2), (0, 2), (1, 2), (2, 0), (2, 1)] {
                let elements = [fault(before), literal(&text), fault(behind)];
                let mut draft = Draft::default();
                draft.definition("a", &elements);
                draft.entry();
                draft.field("t", &elements);
                draft.field("t", &[fault(behind), name("a"), name("a"), fault(before)]);
                asks.check(judge, given(&draft, &months), Tried::One);
            }
        }
    }
}

/// Literals whose arguments stand too deep, which the Rust takes.
pub fn deep<A: Asks>(judge: &mut Judge) {
    let (mut asks, months) = (A::new(), Months::english());
    let nest = |depth: usize| "\\x{".repeat(depth) + &"}".repeat(depth);
    for depth in [63, 64, 65, 66] {
        let text = nest(depth);
        for first in ["x", "}", "$y$"] {
            let mut draft = Draft::default();
            draft.definition("a", &[literal("{y}"), literal(&text), name("nothing")]);
            draft.entry();
            let elements = [literal(first), name("may"), name("a")];
            draft.field("t", &elements);
            draft.field("t", &[literal(&text), literal("}")]);
            draft.definition("c", &[literal(&text), name("may")]);
            draft.entry();
            draft.field("t", &[literal(first), name("c"), name("c")]);
            let given = given(&draft, &months);
            let mut fields = Fields::new(given);
            if depth > 64 {
                fields = fields.told_too_deep(&text, 3 * 64 + 2);
            }
            let chosen = 0..draft.next();
            asks.ask(judge, (given, &fields), chosen, None, Tried::One);
        }
    }
}

/// An entry with so many fields, each of three of the names, behind what the draft has; and the rows of
/// their values.
fn uses(draft: &mut Draft, count: usize, mut any: impl FnMut() -> String) -> Vec<usize> {
    draft.entry();
    let first = draft.next();
    for _ in 0..count {
        let elements: Vec<Element> = (0..3).map(|_| name(any())).collect();
        draft.field("t", &elements);
    }
    let is_value = |row: &usize| draft.rows[4 * row] == 5;
    (first..draft.next()).filter(is_value).collect()
}

/// Many definitions, some of them of the same names, and fields that use some.
pub fn definitions<A: Asks>(judge: &mut Judge, seed: u64, long: bool) {
    let (mut random, mut asks) = (Random::new(seed, 20), A::new());
    let months = Months::english();
    for turn in 0..if long { 400 } else { 8 } {
        let count = [10, 100, 1_000, 4_000][turn % 4];
        let mut draft = Draft::default();
        let any = |random: &mut Random| format!("n{}é", random.below(count));
        for i in 0..count {
            let value = match random.below(6) {
                0 => vec![name(any(&mut random)), literal(i.to_string())],
                _ => vec![literal(i.to_string())],
            };
            draft.definition(&any(&mut random), &value);
        }
        let fields = uses(&mut draft, 20, || any(&mut random));
        let given = given(&draft, &months);
        asks.check_these(judge, given, fields.into_iter(), Tried::One);
    }
}

/// Definitions whose names have one hash, around as many as a chain of the index may have and more, in
/// any order, some of them again and some of names that these begin with: the index then has the
/// definitions in order. And fields that use some.
pub fn colliding<A: Asks>(judge: &mut Judge, seed: u64, long: bool) {
    let (mut random, mut asks) = (Random::new(seed, 22), A::new());
    let months = Months::english();
    let text = |name: Vec<u8>| String::from_utf8(name).expect("letters");
    let alike: Vec<String> = Names::new(b"")
        .iter()
        .step_by(1_009)
        .map(text)
        .take(300)
        .collect();
    for turn in 0..if long { 3_000 } else { 60 } {
        let count = [15, 16, 17, 18, 40, alike.len()][turn % 6];
        let any = |random: &mut Random| {
            let alike = &alike[random.below(count)];
            match random.below(12) {
                0 => alike[..alike.len() - 1].to_string(),
                1 => format!("{alike}a"),
                _ => alike.clone(),
            }
        };
        let mut order: Vec<usize> = (0..count).collect();
        for i in 1..count {
            order.swap(i, random.below(i + 1));
        }
        let mut draft = Draft::default();
        for i in order {
            let value = match random.below(6) {
                0 => vec![name(any(&mut random)), literal(i.to_string())],
                _ => vec![literal(i.to_string())],
            };
            draft.definition(&alike[i], &value);
            if random.one_in(4) {
                draft.definition(&any(&mut random), &[literal(format!("{i} again"))]);
            }
        }
        let fields = uses(&mut draft, 12, || any(&mut random));
        let given = given(&draft, &months);
        asks.check_these(judge, given, fields.into_iter(), Tried::One);
    }
}

/// Random files with random months.
pub fn drawn<A: Asks>(judge: &mut Judge, seed: u64, long: bool) {
    let (mut random, mut asks) = (Random::new(seed, 16), A::new());
    for turn in 0..if long { 600_000 } else { 1_000 } {
        let (draft, months) = draw(&mut random, turn);
        asks.check(judge, given(&draft, &months), Tried::One);
    }
}

/// Random files, each as a whole and value by value.
pub fn one_by_one(judge: &mut Judge, seed: u64, long: bool) {
    let mut random = Random::new(seed, 21);
    for turn in 0..if long { 20_000 } else { 300 } {
        let (draft, months) = draw(&mut random, turn);
        let flag = |_| [0, 0, 1, 0xFF][random.below(4)];
        let flags: Vec<u8> = (0..draft.next()).map(flag).collect();
        wholes::one_by_one(judge, given(&draft, &months), &flags);
    }
}

fn draw(random: &mut Random, turn: usize) -> (Draft, Months) {
    let names = [3, 6, NAMES.len(), NAMES.len()][turn % 4];
    let odd = [usize::MAX, 40, 10][turn % 3];
    let mut drawing = Drawing { random, names, odd };
    (drawing.draft([3, 8, 16][turn % 3]), drawing.months())
}

/// Random files with every kind of room.
pub fn rooms<A: Asks>(judge: &mut Judge, seed: u64, long: bool) {
    let (mut random, mut asks) = (Random::new(seed, 17), A::new());
    for turn in 0..if long { 3_000 } else { 12 } {
        let (draft, months) = draw(&mut random, turn);
        asks.check(judge, given(&draft, &months), Tried::All);
    }
}

/// Random files whose rows, months or places are broken, and every row number.
pub fn broken<A: Asks>(judge: &mut Judge, seed: u64, long: bool) {
    let (mut random, mut asks) = (Random::new(seed, 18), A::new());
    for turn in 0..if long { 60_000 } else { 250 } {
        let (mut draft, mut months) = draw(&mut random, 3 * turn);
        match turn % 4 {
            0 => break_rows(&mut random, &mut draft.rows),
            1 => move_places(&mut random, &mut draft.rows, draft.file.len()),
            2 => move_places(&mut random, &mut months.numbers, months.words.len()),
            _ => damage(&mut random, &mut months),
        }
        asks.check_numbers(judge, given(&draft, &months));
    }
}

/// Puts one number, or both of a pair, at another place that is in the text or little outside.
fn move_places(random: &mut Random, numbers: &mut [u32], length: usize) {
    if numbers.len() < 4 {
        return;
    }
    let at = 4 * random.below(numbers.len() / 4);
    numbers[at + 2] = random.below(length + 3) as u32;
    if random.one_in(2) {
        numbers[at + 3] = random.below(length + 3) as u32;
    }
}

/// Breaks the words' bytes, their number, or the numbers' count.
fn damage(random: &mut Random, months: &mut Months) {
    let (words, numbers) = (months.words.len(), months.numbers.len());
    match random.below(4) {
        0 if words > 0 => months.words[random.below(words)] = random.next() as u8,
        1 if words > 0 => months.words.truncate(random.below(words)),
        2 if numbers > 0 => months.numbers.truncate(numbers - 1 - random.below(3)),
        _ => months
            .numbers
            .extend([0, 0, 0].iter().take(1 + random.below(3))),
    }
}

/// Every sequence of at most five (quick: three) kinds, and what is longer behind a value, with every
/// row chosen.
pub fn sequences<A: Asks>(judge: &mut Judge, long: bool) {
    let (mut asks, months) = (A::new(), Months::default());
    // All rows have the same bytes, so that a name is defined wherever there is a definition.
    let row = |kind: &u32| [*kind, if *kind == 10 { 7 } else { 0 }, 1, 3];
    exhaustive::kinds(if long { 5 } else { 3 }, |kinds| {
        let draft = Draft {
            file: "aéa".into(),
            rows: kinds.iter().flat_map(row).collect(),
        };
        let given = given(&draft, &months);
        asks.check_these(judge, given, 0..kinds.len() + 1, Tried::No);
    });
}

/// Every number in every place of the rows and of the months, one at a time.
pub fn numbers<A: Asks>(judge: &mut Judge) {
    let mut asks = A::new();
    let file = "@string{é={漢}}@b{k,t=é#{\\'e}#may}";
    let (draft, mut months) = (read(file), Months::default());
    months.lend("may", "é漢");
    months.lend("é", "\u{1F600}");
    months.words.extend(b"\xC3\x80\xFF");
    let far = [1 << 8, 1 << 16, 1 << 24, 1 << 31, u32::MAX];
    let numbers = |length: usize| (0..length as u32 + 3).chain(far);
    for at in 0..draft.rows.len() {
        for number in numbers(file.len()) {
            let mut draft = draft.clone();
            draft.rows[at] = number;
            asks.check_numbers(judge, given(&draft, &months));
        }
    }
    for at in 0..months.numbers.len() {
        for number in numbers(months.words.len()) {
            let mut months = months.clone();
            months.numbers[at] = number;
            asks.check_numbers(judge, given(&draft, &months));
        }
    }
    for count in 0..draft.rows.len() {
        let mut draft = draft.clone();
        draft.rows.truncate(count);
        asks.check_numbers(judge, given(&draft, &months));
    }
    for count in 0..months.numbers.len() {
        let mut months = months.clone();
        months.numbers.truncate(count);
        asks.check_numbers(judge, given(&draft, &months));
    }
}

/// 01's order of refusals: files that are too long or not UTF-8, with rows and months that are right
/// and not, scratch of every length around the least, and a value that is refused.
pub fn order<A: Asks>(judge: &mut Judge) {
    let mut asks = A::new();
    let (sound, months) = (
        read("@string{a={x}#nothing}@b{k,t=a#{}}"),
        Months::english(),
    );
    let mut no_months = months.clone();
    no_months.numbers.push(0);
    let mut no_rows = sound.clone();
    no_rows.rows.push(0);
    let too_long = [sound.file.as_bytes(), &vec![b' '; LONGEST_FILE][..]].concat();
    let mut files = vec![sound.file.clone().into_bytes(), too_long];
    files.push(files[1][..LONGEST_FILE].to_vec());
    for sequence in SEQUENCES {
        files.push([sound.file.as_bytes(), sequence, b"}"].concat());
    }
    for (number, file) in files.iter().enumerate() {
        for rows in [&sound.rows, &no_rows.rows] {
            for months in [&months, &no_months] {
                let given = Given {
                    file,
                    rows,
                    months: &months.numbers,
                    words: &months.words,
                };
                let fields = Fields::new(given);
                let scratch = [0, 1, LEAST_SCRATCH - 1, LEAST_SCRATCH, LEAST_SCRATCH + 1];
                for scratch in scratch.map(Some) {
                    let chosen = if number < 3 { 0..11 } else { 0..3 };
                    asks.ask(judge, (given, &fields), chosen, scratch, Tried::One);
                }
            }
        }
    }
}

/// The values of a file, with English months. The call for one looks at all of the file each time, so
/// that of a long file not every value is asked for, but some that are spread over it.
pub fn of_file(judge: &mut Judge, asks: &mut impl Asks, file: &[u8]) {
    const WORK: usize = 20_000_000_000;
    // Only a short file is searched for every name, which is tried too.
    const SHORT: usize = 200_000;
    let Ok(rows) = oracle::salvage(file) else {
        return;
    };
    let numbers = |row: &oracle::Row| [row.kind, row.detail, row.start, row.end];
    let rows: Vec<u32> = rows.iter().flat_map(numbers).collect();
    let months = Months::english();
    let given = Given {
        file,
        rows: &rows,
        months: &months.numbers,
        words: &months.words,
    };
    let chosen = (0..rows.len() / 4).filter(|row| rows[4 * row] == 5);
    let chosen: Vec<usize> = chosen.collect();
    // All values of a file that is not UTF-8 are refused alike.
    let most = match std::str::from_utf8(file) {
        Ok(_) => usize::MAX,
        Err(_) => 4,
    };
    let step = 1 + chosen.len() * (file.len() + rows.len()) / WORK;
    let some = chosen.into_iter().step_by(step).take(most);
    let tried = if file.len() < SHORT {
        Tried::One
    } else {
        Tried::No
    };
    asks.check_these(judge, given, some, tried);
}
