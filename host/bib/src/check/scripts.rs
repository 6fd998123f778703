//! Letters that are not what they look like: those that nobody sees, and those of another script.

use std::ops::Range;

use super::finding::{Finding, Lint};

/// The first character that is not shown, though it makes another word of the one that it stands in.
pub(crate) fn invisible(text: &str, place: usize) -> Option<Finding> {
    let mut before = ' ';
    let mut all = text.char_indices().peekable();
    while let Some((at, c)) = all.next() {
        let behind = all.peek().map_or(' ', |(_, behind)| *behind);
        let name = unseen(c).filter(|_| {
            // Arabic, Hebrew and the scripts of India need them.
            let is_needed = is_joining(c) && (before >= '\u{590}' || behind >= '\u{590}');
            !is_needed
        });
        if let Some(name) = name {
            let start = place + at;
            let message = format!("{name}, U+{:04X}, which is not seen", u32::from(c));
            let hint =
                "take it out: with it, this is another word to whoever cites, sorts or searches";
            let found = Finding::lint(
                Lint::InvisibleCharacter,
                start,
                start + c.len_utf8(),
                message,
            );
            return Some(found.with_hint(Some(hint.into())));
        }
        before = c;
    }
    None
}

fn unseen(c: char) -> Option<&'static str> {
    Some(match c {
        '\u{ad}' => "a soft hyphen",
        '\u{200b}' => "a zero-width space",
        '\u{200c}' => "a zero-width non-joiner",
        '\u{200d}' => "a zero-width joiner",
        '\u{200e}' | '\u{200f}' | '\u{202a}'..='\u{202e}' | '\u{2066}'..='\u{2069}' => {
            "a mark of direction"
        }
        '\u{2060}' => "a word joiner",
        '\u{feff}' => "a byte order mark",
        _ => return None,
    })
}

/// Whether some scripts need this character.
fn is_joining(c: char) -> bool {
    !matches!(c, '\u{ad}' | '\u{200b}' | '\u{2060}' | '\u{feff}')
}

/// The first letter that looks like one of another script, which the letters beside it are of.
pub(crate) fn look_alike(text: &str, place: usize) -> Option<Finding> {
    let found = words(text).find_map(|word| strange(text, word));
    let (at, c, twin, word) = found.or_else(|| strange_initial(text))?;
    let (own, other) = match c.is_ascii() {
        true => ("Latin", script(twin)),
        false => (script(c), "Latin"),
    };
    let word = match word.len() > c.len_utf8() {
        true => format!(" in `{}`", &text[word]),
        false => String::new(),
    };
    let message = format!("`{c}`{word} is {own}, not {other}");
    let hint = match c.is_ascii() {
        true => format!("write the {other} letter that it looks like"),
        false => format!("it only looks like the {other} letter: write `{twin}`"),
    };
    let start = place + at;
    let finding = Finding::lint(Lint::LookAlike, start, start + c.len_utf8(), message);
    Some(finding.with_hint(Some(hint)))
}

/// A word of one letter of another script, where all longer ones are Latin.
fn strange_initial(text: &str) -> Option<(usize, char, char, Range<usize>)> {
    let mut found = None;
    let mut has_latin = false;
    for word in words(text) {
        let letters = &text[word.clone()];
        let c = letters.chars().next()?;
        if letters.chars().all(is_latin) {
            has_latin = true;
        } else {
            let twin = latin_twin(c).filter(|_| letters.len() == c.len_utf8())?;
            found = found.or(Some((word.start, c, twin, word)));
        }
    }
    found.filter(|_| has_latin)
}

fn is_latin(c: char) -> bool {
    matches!(c, '\0'..='\u{24f}' | '\u{1e00}'..='\u{1eff}')
}

fn script(c: char) -> &'static str {
    if c < '\u{400}' {
        "Greek"
    } else {
        "Cyrillic"
    }
}

/// The runs of letters of a text, but those of one script at a glance.
fn words(text: &str) -> impl Iterator<Item = Range<usize>> + '_ {
    let mut place = 0;
    std::iter::from_fn(move || {
        let rest = &text[place..];
        let start = place + rest.find(char::is_alphabetic)?;
        let length = text[start..].find(|c: char| !c.is_alphabetic());
        place = start + length.unwrap_or(text.len() - start);
        Some(start..place)
    })
}

/// The letter of a word that is not of the script of the others, with the one that it looks like.
fn strange(text: &str, word: Range<usize>) -> Option<(usize, char, char, Range<usize>)> {
    let letters = &text[word.clone()];
    if letters.is_ascii() {
        return None;
    }
    let is_twin = |c: char| matches!(c, '\u{370}'..='\u{52f}');
    if !letters.chars().all(|c| is_latin(c) || is_twin(c)) {
        return None;
    }
    let all = || letters.char_indices();
    // Either all letters of the one script look like the other, or all of the other like the one.
    let find = |wanted: bool, twin: fn(char) -> Option<char>| {
        let mut few = all().filter(|(_, c)| is_latin(*c) == wanted);
        let (at, c) = few.clone().next()?;
        let is_all = few.all(|(_, c)| twin(c).is_some());
        Some((
            word.start + at,
            c,
            twin(c).filter(|_| is_all)?,
            word.clone(),
        ))
    };
    let latin = letters.chars().filter(|c| is_latin(*c)).count();
    let others = letters.chars().count() - latin;
    if latin >= others {
        find(false, latin_twin)
    } else if latin > 0 && letters.contains(|c| c >= '\u{400}') {
        find(true, cyrillic_twin)
    } else {
        None
    }
}

/// Letters of Latin, each with the Cyrillic ones and the Greek ones that look the same.
const TWINS: [(char, &str); 31] = [
    ('A', "АΑ"),
    ('B', "ВΒ"),
    ('C', "С"),
    ('E', "ЕΕ"),
    ('H', "НΗ"),
    ('I', "ІΙ"),
    ('J', "Ј"),
    ('K', "КΚ"),
    ('M', "МΜ"),
    ('N', "Ν"),
    ('O', "ОΟ"),
    ('P', "РΡ"),
    ('S', "Ѕ"),
    ('T', "ТΤ"),
    ('X', "ХΧ"),
    ('Y', "Υ"),
    ('Z', "Ζ"),
    ('a', "а"),
    ('c', "с"),
    ('e', "е"),
    ('h', "һ"),
    ('i', "і"),
    ('j', "ј"),
    ('k', "к"),
    ('m', "м"),
    ('o', "оο"),
    ('p', "р"),
    ('s', "ѕ"),
    ('t', "т"),
    ('x', "х"),
    ('y', "у"),
];

fn latin_twin(c: char) -> Option<char> {
    let found = TWINS.iter().find(|(_, others)| others.contains(c))?;
    Some(found.0)
}

fn cyrillic_twin(c: char) -> Option<char> {
    let found = TWINS.iter().find(|(latin, _)| *latin == c)?;
    found.1.chars().next()
}

#[cfg(test)]
mod tests {
    use super::*;

    /// The text that a finding is about.
    fn found(find: fn(&str, usize) -> Option<Finding>, text: &str) -> Option<&str> {
        find(text, 0).map(|finding| &text[finding.start..finding.end])
    }

    #[test]
    fn letters_of_another_script() {
        for (text, wrong) in [
            ("Ivаnov", "а"),
            ("Иванoв", "o"),
            ("Knuth and Lamроrt", "р"),
            ("Μicro", "Μ"),
            ("А. Knuth", "А"),
        ] {
            assert_eq!(found(look_alike, text), Some(wrong), "{text}");
        }
        for text in [
            "Ivanov (Иванов)",
            "А. Иванов and D. Knuth",
            "α. Knuth",
            "Иванов",
            "ΛCDM",
            "νMSM",
            "Müller",
            "Thế",
            "漢字 Kanji",
            "βeta",
        ] {
            assert_eq!(found(look_alike, text), None, "{text}");
        }
    }

    #[test]
    fn characters_that_are_not_seen() {
        for (text, wrong) in [
            ("Knuth\u{200b}84", "\u{200b}"),
            ("\u{feff}Knuth", "\u{feff}"),
            ("Knu\u{ad}th", "\u{ad}"),
            ("Knu\u{200d}th", "\u{200d}"),
        ] {
            assert_eq!(found(invisible, text), Some(wrong), "{text}");
        }
        for text in ["Knuth", "می\u{200c}خواهم", "\u{200f}שלום", "क्\u{200d}ष"] {
            assert_eq!(found(invisible, text), None, "{text}");
        }
    }
}
