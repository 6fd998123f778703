//! Commas between names, where `and` should stand. One comma divides `Last, First`, two `Last, Junior, First`.

use std::ops::Range;

use super::lists::words;

/// The first comma of a list that stands between two names.
pub(crate) fn comma(text: &[u8]) -> Option<usize> {
    // Many lists have none, and of the others most have one in each name.
    if !text.contains(&b',') {
        return None;
    }
    names(text).find_map(|name| comma_of(text, name))
}

/// The names between each `and`.
fn names(text: &[u8]) -> impl Iterator<Item = Range<usize>> + '_ {
    let mut all = words(text);
    std::iter::from_fn(move || {
        let is_and = |word: &Range<usize>| text[word.clone()].eq_ignore_ascii_case(b"and");
        let mut name: Option<Range<usize>> = None;
        for word in all.by_ref() {
            match &mut name {
                Some(_) if is_and(&word) => break,
                Some(name) => name.end = word.end,
                None if is_and(&word) => {}
                None => name = Some(word),
            }
        }
        name
    })
}

/// The comma in what is taken for one name that divides two. Four parts are too many for one; of three, none is
/// a `Jr.` and each has several words; of two the first is like `D. E. Knuth` or `Donald E. Knuth`, and the
/// second a whole name too, or both are like `Knuth DE`.
fn comma_of(text: &[u8], name: Range<usize>) -> Option<usize> {
    // BibLaTeX takes `family=Knuth, given=Donald`.
    if text[name.clone()].contains(&b'=') {
        return None;
    }
    let mut commas = [0; 3];
    let mut count = 0;
    let mut depth = 0usize;
    for (place, byte) in text[name.clone()].iter().enumerate() {
        match byte {
            b'{' => depth += 1,
            b'}' => depth = depth.saturating_sub(1),
            // One at the end divides nothing.
            b',' if depth == 0 && count < 3 && name.start + place + 1 < name.end => {
                commas[count] = name.start + place;
                count += 1;
            }
            _ => {}
        }
    }
    let [one, two, _] = commas;
    match count {
        3 if is_few(&text[one + 1..two]) => Some(two),
        3 => Some(one),
        2 => {
            let parts = [name.start..one, one + 1..two, two + 1..name.end];
            let is_full = |part: &Range<usize>| is_long(&text[part.clone()]);
            parts.iter().all(is_full).then_some(one)
        }
        1 => {
            let [first, last] = [&text[name.start..one], &text[one + 1..name.end]];
            let is_first_last = is_short_and_last(first) && is_long(last) && is_last_word(last);
            let is_last_first = is_last_and_short(first) && is_last_and_short(last);
            (is_first_last || is_last_first).then_some(one)
        }
        _ => None,
    }
}

/// The words of a part of a name; a tie divides them too.
fn parts(text: &[u8]) -> impl DoubleEndedIterator<Item = &[u8]> {
    let all = text.split(|byte| byte.is_ascii_whitespace() || *byte == b'~');
    all.filter(|word| !word.is_empty())
}

/// Whether a part of a name is one word, or initials alone.
fn is_few(text: &[u8]) -> bool {
    parts(text).count() < 2 || parts(text).all(is_initial)
}

/// Whether a part of a name may be a whole one: two words or more, and no `Jr.`.
fn is_long(text: &[u8]) -> bool {
    parts(text).count() > 1 && parts(text).any(is_word) && !parts(text).any(is_junior)
}

/// Whether a part of a name is like `D. E. Knuth`, or `Donald E. Knuth`.
fn is_short_and_last(text: &[u8]) -> bool {
    let count = parts(text).count();
    let mut first = parts(text).take(count.saturating_sub(1));
    first.any(is_initial) && is_last_word(text)
}

/// Whether a part of a name ends with a word that may be a family's.
fn is_last_word(text: &[u8]) -> bool {
    parts(text)
        .next_back()
        .is_some_and(|last| is_word(last) && !is_junior(last))
}

/// Whether a part of a name is like `Knuth DE`, as some catalogues write it.
fn is_last_and_short(text: &[u8]) -> bool {
    let is_letters = |word: &[u8]| word.len() < 4 && word.iter().all(u8::is_ascii_uppercase);
    let last = parts(text).next_back();
    parts(text).count() == 2
        && parts(text).next().is_some_and(is_word)
        && last.is_some_and(|last| is_letters(last) && !is_junior(last))
}

/// `D.`, `D.E.` or `J.-P.`
fn is_initial(word: &[u8]) -> bool {
    matches!(word, [b'A'..=b'Z', b'.', ..]) && word.ends_with(b".")
}

/// Three letters or more, without a point.
fn is_word(word: &[u8]) -> bool {
    let letters = word.iter().filter(|byte| byte.is_ascii_alphabetic());
    letters.count() > 2 && !word.contains(&b'.')
}

/// What stands between the commas of `Last, Junior, First`, or is put behind a name by mistake.
fn is_junior(word: &[u8]) -> bool {
    const WORDS: [&str; 16] = [
        "jr", "jnr", "junior", "sr", "snr", "senior", "ii", "iii", "iv", "filho", "neto", "fils",
        "phd", "md", "esq", "ed",
    ];
    let word = word.strip_suffix(b".").unwrap_or(word);
    let is = |known: &&str| word.eq_ignore_ascii_case(known.as_bytes());
    WORDS.iter().any(is)
}

#[cfg(test)]
mod tests {
    use super::*;

    #[test]
    fn commas_between_names() {
        let at = |text: &str| comma(text.as_bytes());
        assert_eq!(at("Knuth, D. E., Lamport, L."), Some(12));
        assert_eq!(
            at("Donald Knuth, Leslie Lamport, Ann Author, B. Writer"),
            Some(12)
        );
        assert_eq!(at("Donald Knuth, Leslie Lamport, Ann Author"), Some(12));
        assert_eq!(at("A. Author and D. E. Knuth, L. Lamport"), Some(25));
        assert_eq!(at("Donald E. Knuth, Leslie Lamport"), Some(15));
        assert_eq!(at("D. E. Knuth, Leslie Lamport and A. Author"), Some(11));
        assert_eq!(at("Knuth DE, Lamport L"), Some(8));
    }

    #[test]
    fn commas_in_names() {
        for text in [
            "",
            "Knuth",
            "Knuth, Donald E.",
            "Knuth, D. E. and Lamport, L.",
            "King, Jr., Martin Luther",
            "de la Fontaine, Jr., Jean",
            "King, Martin Luther, Jr.",
            "Garc{\\'i}a M{\\'a}rquez, Gabriel Jos{\\'e}",
            "{Smith, Jones, Brown, and Sons}",
            "{University of X}, {Dept. of Y}",
            "J. Smith, Jr.",
            "O. Henry, W.",
            "Knuth DE, Donald",
            "St. John, Mary Ann",
            "Marquez G., Jose Maria",
            "King MD, PhD",
            "Knuth, Donald E.,",
            "given=Martin, family=King, suffix=Jr., prefix=x",
        ] {
            assert_eq!(comma(text.as_bytes()), None, "{text}");
        }
    }
}
