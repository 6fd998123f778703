//! Culprits: every character where the grammar looks for others, and the end of the text there. A refusal
//! has the whole of the character as its place, and at the end of what is read, the file or the piece, it
//! has an empty one.
//!
//! Both readers are compared as always. The Rust says no ends of places: they are the oracle's own. So each
//! case is worked out here once more, from what the place takes, and stops the run where the oracle says
//! otherwise; and so does a place at which some length of characters was not met.

use oracle::raw::is_id_start;
use oracle::Refusal;

use crate::exhaustive;
use crate::judge::Judge;

/// A place of the grammar, and what is refused there.
struct Place {
    /// What stands before it, and what would go on well behind it.
    before: &'static str,
    after: &'static str,
    /// The numbers by which a character is refused there, and the end of the text.
    numbers: (u32, u32),
    /// Whether white space is skipped before the character is looked at.
    is_white_skipped: bool,
    /// The characters that are not refused by that number.
    takes: fn(char) -> bool,
    /// The most bytes of one that is. Where a name may begin, what is refused is white space or a control.
    widest: usize,
}

/// One for each number from 3 to 10; of 4 for a type and for a field's name, of 7 behind a key and behind a
/// value.
const PLACES: [Place; 10] = [
    Place {
        before: "@a{k,t=",
        after: "{x}}",
        numbers: (3, 3),
        is_white_skipped: true,
        takes: |c| is_id_start(c) || "{\"".contains(c),
        widest: 2,
    },
    Place {
        before: "@",
        after: "a{k,}",
        numbers: (4, 4),
        is_white_skipped: false,
        takes: is_id_start,
        widest: 3,
    },
    Place {
        before: "@a{k,",
        after: "t=1}",
        numbers: (4, 3),
        is_white_skipped: true,
        takes: |c| is_id_start(c) || "}%".contains(c),
        widest: 2,
    },
    token("@a ", 5, "{k,}", |c| "{\"".contains(c)),
    token("@preamble{\"x\" ", 6, "}", |c| "}\"".contains(c)),
    token("@a{k ", 7, ",}", |c| c == ','),
    token("@a{k,t={x} ", 7, ",}", |c| ",}#%".contains(c)),
    token("@preamble{", 8, "\"x\"}", |c| c == '"'),
    token("@a{k,t ", 9, "={x}}", |c| c == '='),
    Place {
        before: "@a{k,y=1.2",
        after: "3}",
        numbers: (10, 3),
        is_white_skipped: false,
        takes: |c| c != '.',
        widest: 1,
    },
];

/// A place where one of a few characters must stand, behind white space.
const fn token(
    before: &'static str,
    number: u32,
    after: &'static str,
    takes: fn(char) -> bool,
) -> Place {
    Place {
        before,
        after,
        numbers: (number, number),
        is_white_skipped: true,
        takes,
        widest: 4,
    }
}

/// The file that a place is put into: what stands before its text, whether that goes on behind the
/// character, and what stands behind it.
pub struct Form {
    before: &'static str,
    goes_on: bool,
    behind: &'static str,
}

/// The file is that text, which goes on or ends there.
pub const ALONE: [Form; 2] = [form("", true, ""), form("", false, "")];

/// The text is a damaged piece between sound ones, which goes on or has its newline there; and the last piece
/// of the file, which ends there.
pub const A_PIECE: [Form; 3] = [
    form(SOUND, true, "\n@t{k,}"),
    form(SOUND, false, "\n@t{k,}"),
    form(SOUND, false, ""),
];

/// Two sound pieces, with characters of several bytes.
const SOUND: &str = "\u{e9}\n@s{\u{6f22},}\n";

const fn form(before: &'static str, goes_on: bool, behind: &'static str) -> Form {
    Form {
        before,
        goes_on,
        behind,
    }
}

/// How many cases were refused over no byte, and over one to four.
type Widths = [u64; 5];

/// Every character, or in a quick run some, at each place in files of these forms; and nothing there.
pub fn run(judge: &mut Judge, forms: &[Form], long: bool) {
    let mut all = Widths::default();
    for place in &PLACES {
        let mut widths = Widths::default();
        for form in forms {
            check(judge, place, form, "", &mut widths);
            for c in characters(long) {
                check(judge, place, form, c.encode_utf8(&mut [0; 4]), &mut widths);
            }
        }
        let met = &widths[..=place.widest];
        assert!(!met.contains(&0), "{:?}: {widths:?}", place.before);
        (0..all.len()).for_each(|width| all[width] += widths[width]);
    }
    let all = all.map(|count| count.to_string()).join(", ");
    println!("refused over 0, 1, 2, 3 and 4 bytes: {all}");
}

/// Those that other groups take, and the last before the surrogates.
fn characters(long: bool) -> impl Iterator<Item = char> {
    let last = (!long).then_some('\u{D7FF}');
    exhaustive::some_characters(long).chain(last)
}

/// One case; where the place must refuse what stands there, it is counted by the width of that.
fn check(judge: &mut Judge, place: &Place, form: &Form, c: &str, widths: &mut Widths) {
    let after = if form.goes_on { place.after } else { "" };
    let file = [form.before, place.before, c, after, form.behind].concat();
    let refused = judge.check_refused(file.as_bytes());
    // The newline in front of what stands behind is the piece's last character.
    let end = file.len() - form.behind.len() + usize::from(!form.behind.is_empty());
    if let Some(wanted) = wanted(place, &file[..end], form.before.len()) {
        assert_eq!(refused, Some(wanted), "{file:?}");
        widths[(wanted.end - wanted.start) as usize] += 1;
    }
}

/// What the text that begins at this byte must be refused with, if its place does not take what stands
/// there.
fn wanted(place: &Place, file: &str, begins: usize) -> Option<Refusal> {
    let mut rest = &file[begins + place.before.len()..];
    if place.is_white_skipped {
        rest = rest.trim_start();
    }
    let start = file.len() - rest.len();
    let (number, width) = match rest.chars().next() {
        Some(c) if (place.takes)(c) => return None,
        Some(c) => (place.numbers.0, c.len_utf8()),
        None => (place.numbers.1, 0),
    };
    Some(Refusal {
        number,
        start: start as u32,
        end: (start + width) as u32,
    })
}
