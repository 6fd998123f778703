//! What is wrong in lists of names.

use std::ops::Range;

use super::commas::comma;
use super::finding::{Finding, Lint};

/// Fields that hold lists of names.
const NAME_LISTS: [&str; 12] = [
    "author",
    "editor",
    "editora",
    "editorb",
    "editorc",
    "translator",
    "bookauthor",
    "annotator",
    "commentator",
    "foreword",
    "afterword",
    "holder",
];

/// What is wrong in a list of names that begins at this place of the file; the first of it is said.
pub(crate) fn wrong_names(text: &[u8], place: usize) -> Option<Finding> {
    let finding = |lint, word: Range<usize>, message: &str| {
        let (start, end) = (place + word.start, place + word.end);
        Finding::lint(lint, start, end, message.into())
    };
    if let Some((place, message)) = lone_and(text) {
        let hint = "write the name that is missing, or take the `and` out";
        let found = finding(Lint::AndList, place..place + 3, message);
        return Some(found.with_hint(Some(hint.into())));
    }
    if let Some(word) = et_al(text) {
        let hint = "write `and others` for names that are left out";
        let found = finding(Lint::EtAl, word, "`et al.` is taken for a name");
        return Some(found.with_hint(Some(hint.into())));
    }
    let comma = || {
        let place = comma(text)?;
        let message = "`,` between two names is taken for a part of one";
        Some((place..place + 1, message))
    };
    let inside = || separator_inside(text);
    let (word, message) = separator(text).or_else(inside).or_else(comma)?;
    let hint = "write `and` between two names, and braces around one that has such a mark in it";
    let found = finding(Lint::NameSeparator, word, message);
    Some(found.with_hint(Some(hint.into())))
}

pub(crate) fn is_name_list(field: &[u8]) -> bool {
    NAME_LISTS
        .iter()
        .any(|name| field.eq_ignore_ascii_case(name.as_bytes()))
}

/// Where a list of names has an `and` without a name on one of its sides, and what that is.
fn lone_and(text: &[u8]) -> Option<(usize, &'static str)> {
    let is_and = |word: &Range<usize>| text[word.clone()].eq_ignore_ascii_case(b"and");
    let mut before = None;
    for word in words(text) {
        match &before {
            None if is_and(&word) => {
                return Some((word.start, "the list of names begins with `and`"))
            }
            Some(other) if is_and(other) && is_and(&word) => {
                return Some((word.start, "the list of names has `and` twice in a row"))
            }
            _ => before = Some(word),
        }
    }
    let last = before.filter(is_and)?;
    Some((last.start, "the list of names ends with `and`"))
}

/// Where a list of names has `et al`, with or without a point, as words of their own; or as one, with a tie, in
/// braces or in a command.
fn et_al(text: &[u8]) -> Option<Range<usize>> {
    let is = |word: &Range<usize>, other: &str| {
        let word = text[word.clone()]
            .strip_suffix(b",")
            .unwrap_or(&text[word.clone()]);
        word.strip_suffix(b".")
            .unwrap_or(word)
            .eq_ignore_ascii_case(other.as_bytes())
    };
    let mut before: Option<Range<usize>> = None;
    for word in words(text) {
        if is_et_al(&text[word.clone()]) {
            return Some(word);
        }
        if let Some(et) = before.filter(|before| is(before, "et") && is(&word, "al")) {
            return Some(et.start..word.end);
        }
        before = Some(word);
    }
    None
}

/// Whether a word is `et~al.`, `{et al.}`, `\emph{et al.}` or the like.
fn is_et_al(word: &[u8]) -> bool {
    // The longest is `{\itshape et al.}`; most words are plain.
    let is_plain = !word.contains(&b'{') && !word.contains(&b'~') && !word.starts_with(b"etal");
    if is_plain || !(4..20).contains(&word.len()) {
        return false;
    }
    let is_mark =
        |byte: &u8| matches!(byte, b'{' | b'}' | b'~' | b',') || byte.is_ascii_whitespace();
    let parts = word.split(is_mark).filter(|part| !part.is_empty());
    let mut parts = parts.filter(|part| !part.starts_with(b"\\"));
    let is = |part: Option<&[u8]>, other: &str| {
        let part = part.unwrap_or_default();
        let part = part.strip_suffix(b".").unwrap_or(part);
        part.eq_ignore_ascii_case(other.as_bytes())
    };
    let first = parts.next();
    matches!(first, Some(b"etal" | b"etal."))
        || is(first, "et") && is(parts.next(), "al") && parts.next().is_none()
}

/// Where a list of names has another mark than `and` between two of them, and what is said of it. A mark
/// inside braces is a part of a name; that of `&amp;` is none.
fn separator(text: &[u8]) -> Option<(Range<usize>, &'static str)> {
    let mut all = words(text).peekable();
    // Something stands before it and behind it.
    all.next_if(|word| !text[word.clone()].ends_with(b";"));
    while let Some(word) = all.next() {
        let part = &text[word.clone()];
        all.peek()?;
        if matches!(part, b"&" | b"\\&") {
            return Some((word, "`&` between two names is taken for a part of one"));
        }
        if part.ends_with(b";") && !part.contains(&b'&') {
            let mark = word.end - 1..word.end;
            return Some((mark, "`;` between two names is taken for a part of one"));
        }
    }
    None
}

/// The same where no blank stands beside the mark: `A. Author;B. Writer`.
fn separator_inside(text: &[u8]) -> Option<(Range<usize>, &'static str)> {
    // Most lists have neither.
    if !text.contains(&b';') && !text.contains(&b'&') {
        return None;
    }
    let mut depth = 0usize;
    for (place, byte) in text.iter().enumerate() {
        match byte {
            b'{' => depth += 1,
            b'}' => depth = depth.saturating_sub(1),
            b';' | b'&' if depth == 0 && is_between(text, place) => {
                let message = match byte {
                    b';' => "`;` between two names is taken for a part of one",
                    _ => "`&` between two names is taken for a part of one",
                };
                return Some((place..place + 1, message));
            }
            _ => {}
        }
    }
    None
}

/// Whether a mark stands directly between two names: behind an initial or a word of three letters or more, which is
/// no entity of HTML, and before a capital letter and more than one word. `R&D` is one name.
fn is_between(text: &[u8], place: usize) -> bool {
    let before = text[..place].strip_suffix(b"\\").unwrap_or(&text[..place]);
    let is_letter = |byte: &&u8| byte.is_ascii_alphabetic() || !byte.is_ascii();
    let letters = before.iter().rev().take_while(is_letter).count();
    let is_initial = before.ends_with(b".");
    let is_entity = before[..before.len() - letters].ends_with(b"&");
    let is_next = text[place + 1..]
        .first()
        .is_some_and(|byte| byte.is_ascii_uppercase());
    let few = &text[place + 1..text.len().min(place + 40)];
    let is_several = few.iter().any(|byte| matches!(byte, b' ' | b',' | b'.'));
    (letters > 2 || is_initial) && !is_entity && is_next && is_several
}

/// The words of a value, between the white space that stands outside braces.
pub(crate) fn words(text: &[u8]) -> impl Iterator<Item = Range<usize>> + '_ {
    let mut place = 0;
    std::iter::from_fn(move || {
        let rest = &text[place..];
        let start = place + rest.iter().position(|byte| !byte.is_ascii_whitespace())?;
        let mut depth = 0usize;
        let is_end = |byte: &u8| {
            match byte {
                b'{' => depth += 1,
                b'}' => depth = depth.saturating_sub(1),
                _ => {}
            }
            byte.is_ascii_whitespace() && depth == 0
        };
        let length = text[start..].iter().position(is_end);
        place = start + length.unwrap_or(text.len() - start);
        Some(start..place)
    })
}

#[cfg(test)]
mod tests {
    use super::*;

    #[test]
    fn other_marks_in_lists() {
        let at = |text: &str| separator(text.as_bytes()).map(|(word, _)| word.start);
        assert_eq!(at("A. Author; B. Writer"), Some(9));
        assert_eq!(at("Author; Writer"), Some(6));
        assert_eq!(at("A. Author & B. Writer"), Some(10));
        assert_eq!(at("A \\& B"), Some(2));
        assert_eq!(at("{A & B} and {C; D}"), None);
        assert_eq!(at("Ren&eacute; Descartes"), None);
        assert_eq!(at("A. Author;"), None);
        assert_eq!(at("& A"), None);
        let at = |text: &str| et_al(text.as_bytes()).map(|word| word.start);
        assert_eq!(at("A. Author and et al."), Some(14));
        assert_eq!(at("A. Author et al"), Some(10));
        assert_eq!(at("A. Author and {et al.}"), Some(14));
        assert_eq!(at("A. Author and et~al."), Some(14));
        assert_eq!(at("A. Author and \\emph{et al}"), Some(14));
        assert_eq!(at("A. Author and {\\em et al.}"), Some(14));
        assert_eq!(at("A. Author, etal."), Some(11));
        assert_eq!(at("Et Alii and Al Et"), None);
        assert_eq!(at("{Et Al and Sons} and Etal, A."), None);
        let at = |text: &str| separator_inside(text.as_bytes()).map(|(word, _)| word.start);
        assert_eq!(at("A. Author;B. Writer"), Some(9));
        assert_eq!(at("Author, A.;Writer, B."), Some(10));
        assert_eq!(at("A. Author\\&B. Writer"), Some(10));
        assert_eq!(at("AT\\&T and R&D"), None);
        assert_eq!(at("Ren&eacute;Descartes, X"), None);
        assert_eq!(at("{Author;B. Writer}"), None);
    }

    #[test]
    fn lists_of_names() {
        let at = |text: &str| lone_and(text.as_bytes()).map(|found| found.0);
        assert_eq!(at("and A. Author"), Some(0));
        assert_eq!(at("A. Author and"), Some(10));
        assert_eq!(at("A and  AND B"), Some(7));
        assert_eq!(at("A and B and others"), None);
        assert_eq!(at("{and Sons} and {Rock and and Roll}"), None);
        assert_eq!(at("Anderson and Landand"), None);
        assert_eq!(at(""), None);
    }
}
