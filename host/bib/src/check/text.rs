//! Looking into the text of a file: what the lints and hints look for.

use std::ops::Range;

use super::cursor::Cursor;

/// So many characters of a file are written in a message.
const MOST: usize = 40;

/// A part of a file as it is written in a message: in one line, and not long.
pub(crate) fn quoted(text: &[u8]) -> String {
    // Most are short and without blanks.
    if text.len() <= MOST && text.iter().all(u8::is_ascii_graphic) {
        return String::from_utf8_lossy(text).into_owned();
    }
    // A long one may be asked for over and over, and is mostly settled by its first bytes: what comes of
    // the last of these, where they are cut inside a character, is not shown.
    let first = in_one_line(&text[..text.len().min(8 * MOST)]);
    let line = match first.chars().nth(MOST + 1) {
        Some(_) => first,
        None => in_one_line(text),
    };
    if line.chars().count() <= MOST {
        return line;
    }
    let few: String = line.chars().take(MOST - 1).collect();
    few + "…"
}

/// So many bytes of a key are in a finding: a file may have millions of findings about one entry.
const MOST_OF_KEY: usize = 256;

/// A key as findings have it: what is not UTF-8 by the replacement character, and of a very long one the
/// beginning.
pub fn key_name(key: &[u8]) -> String {
    String::from_utf8_lossy(&key[..key.len().min(MOST_OF_KEY)]).into_owned()
}

fn in_one_line(text: &[u8]) -> String {
    let text = String::from_utf8_lossy(text);
    text.split_whitespace().collect::<Vec<_>>().join(" ")
}

/// How many identifier bytes of ASCII, and of other characters, end the text.
fn word_before(text: &[u8]) -> usize {
    let is_word = |byte: &&u8| byte.is_ascii_alphanumeric() || matches!(byte, b'-' | b'_' | b'+');
    text.iter().rev().take_while(is_word).count()
}

/// The text without the blanks and tabs at its end.
pub(crate) fn without_blanks(text: &[u8]) -> &[u8] {
    let kept = text.iter().rposition(|byte| !matches!(byte, b' ' | b'\t'));
    &text[..kept.map_or(0, |last| last + 1)]
}

/// The `word` before an equals sign at this place, where a letter begins it.
fn name_before(text: &[u8], equals: usize) -> Option<Range<usize>> {
    let before = without_blanks(&text[..equals]);
    let name = before.len() - word_before(before)..before.len();
    let begins = text.get(name.start)?.is_ascii_alphabetic();
    (begins && !name.is_empty()).then_some(name)
}

/// Whether what follows an equals sign looks like a value: braces, quotes, or one number or word,
/// with what may follow it on the line.
fn is_value(text: &[u8]) -> bool {
    let text = &text[blanks_before(text)..];
    if let Some(b'{' | b'"') = text.first() {
        return delimited(text).is_none_or(|rest| may_follow(next_on_line(rest)));
    }
    let word = text.iter().take_while(|byte| byte.is_ascii_alphanumeric());
    let (word, rest) = text.split_at(word.count());
    let next = next_on_line(rest);
    let is_number = word.iter().all(u8::is_ascii_digit);
    !word.is_empty() && may_follow(next) && (is_number || next.is_some())
}

/// The same outside every entry, where a value may stand on the next line, or be a name before a brace that closes
/// nothing.
fn is_value_outside(text: &[u8]) -> bool {
    let is_begun = next_on_line(text).is_some();
    let rest = text.trim_ascii_start();
    if !is_begun {
        return matches!(rest.first(), Some(b'{' | b'"')) && is_value(rest);
    }
    let word = rest.iter().take_while(|byte| byte.is_ascii_alphanumeric());
    let (word, rest) = rest.split_at(word.count());
    let is_last = next_on_line(rest).is_none() && rest.trim_ascii_start().first() == Some(&b'}');
    is_value(text) || !word.is_empty() && is_last
}

/// How many blanks of its line a text begins with.
fn blanks_before(text: &[u8]) -> usize {
    let is_blank = |byte: &&u8| byte.is_ascii_whitespace() && !matches!(byte, b'\n' | b'\r');
    text.iter().take_while(is_blank).count()
}

/// The first byte that is not a blank, if the line does not end before it.
fn next_on_line(text: &[u8]) -> Option<u8> {
    let next = text.get(blanks_before(text)).copied();
    next.filter(|byte| !matches!(byte, b'\n' | b'\r'))
}

/// Whether this may follow a value on its line.
fn may_follow(next: Option<u8>) -> bool {
    matches!(next, None | Some(b',' | b'}' | b'#'))
}

/// So far a value is followed for its end: text outside entries may have a million of them, each in the
/// next one.
const MOST_OF_VALUE: usize = 256;

/// What follows a value in braces or quotes that is closed on its line.
fn delimited(text: &[u8]) -> Option<&[u8]> {
    let is_quoted = text.first() == Some(&b'"');
    let mut depth = 0;
    for (place, byte) in text.iter().enumerate().take(MOST_OF_VALUE) {
        match byte {
            b'\n' | b'\r' => return None,
            b'{' => depth += 1,
            b'}' => depth -= 1,
            b'"' if is_quoted && place > 0 => return Some(&text[place + 1..]),
            _ => {}
        }
        if depth == 0 && !is_quoted {
            return Some(&text[place + 1..]);
        }
    }
    None
}

/// The first `word = value` of a text that begins a line, but not the text: its name. That is a
/// field which a value swallowed.
pub(crate) fn field_in_value(text: &[u8]) -> Option<Range<usize>> {
    let is_begin = |before: &[u8]| matches!(before.last(), Some(b'\n' | b'\r'));
    fields(text, is_begin, is_value).next()
}

/// The key of the first `@word{key,` of a text that stands behind blanks at the beginning of a line: an entry which
/// a value swallowed. Without blanks it would end the piece, which is said otherwise.
pub(crate) fn entry_in_value(text: &[u8]) -> Option<Range<usize>> {
    let mut from = 0;
    loop {
        let at = from + text[from..].iter().position(|byte| *byte == b'@')?;
        from = at + 1;
        let before = without_blanks(&text[..at]);
        if before.len() == at || !matches!(before.last(), Some(b'\n' | b'\r')) {
            continue;
        }
        let mut cursor = Cursor::new(text, from..text.len());
        let is_begun = cursor.ident().is_some() && cursor.eat(b'{');
        let key = cursor.key();
        if is_begun && !key.is_empty() && cursor.eat(b',') {
            return Some(key);
        }
    }
}

/// The names of each `word = value` of a text outside every entry, at the beginning of a line or behind
/// what may end a field.
pub(crate) fn fields_outside(text: &[u8]) -> impl Iterator<Item = Range<usize>> + '_ {
    let is_begin = |before: &[u8]| {
        let before = without_blanks(before.strip_suffix(b",").unwrap_or(before));
        matches!(before.last(), None | Some(b'\n' | b'\r' | b'}'))
    };
    fields(text, is_begin, is_value_outside)
}

fn fields<'a>(
    text: &'a [u8],
    is_begin: impl Fn(&[u8]) -> bool + 'a,
    is_value: fn(&[u8]) -> bool,
) -> impl Iterator<Item = Range<usize>> + 'a {
    let mut from = 0;
    std::iter::from_fn(move || loop {
        let equals = from + text[from..].iter().position(|byte| *byte == b'=')?;
        from = equals + 1;
        let name = name_before(text, equals)
            .filter(|name| is_begin(without_blanks(&text[..name.start])))
            .filter(|_| is_value(&text[from..]));
        if name.is_some() {
            return name;
        }
    })
}

/// An entry without its "@".
pub(crate) struct Lost {
    /// From its type to behind the comma of its key.
    pub span: Range<usize>,
    pub key: Range<usize>,
}

/// Each `word{key,` of a text that begins a line. With a blank before the brace, the comma must end the
/// line, since prose may have such a brace; and without a word, a field must follow.
pub(crate) fn entries_outside(text: &[u8]) -> impl Iterator<Item = Lost> + '_ {
    let mut from = 0;
    std::iter::from_fn(move || loop {
        let brace = from + text[from..].iter().position(|byte| *byte == b'{')?;
        from = brace + 1;
        let found = entry_outside(text, brace);
        if found.is_some() {
            return found;
        }
    })
}

/// The entry without an "@" whose brace this is. Only the brace of a word that begins a line is followed,
/// so that no byte is looked at for many of them.
fn entry_outside(text: &[u8], brace: usize) -> Option<Lost> {
    let before = without_blanks(&text[..brace]);
    let start = before.len() - word_before(before);
    let has_word = start < before.len();
    let is_word = !has_word || text[start].is_ascii_alphabetic();
    let line = without_blanks(&text[..start]);
    if !is_word || !matches!(line.last(), None | Some(b'\n' | b'\r')) {
        return None;
    }
    let start = if has_word { start } else { brace };
    let mut cursor = Cursor::new(text, brace + 1..text.len());
    let key = cursor.key();
    let is_key = !key.is_empty() && cursor.eat(b',');
    let span = start..cursor.place;
    let is_end = matches!(cursor.peek(), None | Some(b'\n' | b'\r'));
    let is_entry = match has_word {
        true => is_key && (before.len() == brace || is_end),
        false => is_key && begins_field(&text[cursor.place..]),
    };
    is_entry.then_some(Lost { span, key })
}

/// Whether a text begins with `word = {` or the like.
fn begins_field(text: &[u8]) -> bool {
    let few = &text[..text.len().min(MOST_OF_VALUE)];
    let equals = few.iter().position(|byte| *byte == b'=').unwrap_or(0);
    let name = few[..equals].trim_ascii();
    let is_name = !name.is_empty() && word_before(name) == name.len();
    is_name && is_value(&text[equals + 1..])
}

/// What to do about a line that a merge left.
pub(crate) const CONFLICT: &str =
    "this line was left by a merge: keep one of the two versions, and take the lines of `<`, `=` and `>` out";

/// Whether a line is one of those that a merge leaves around two versions.
pub(crate) fn is_conflict(line: &[u8]) -> bool {
    let is_named = |mark: &[u8]| line.starts_with(mark) && matches!(line.get(7), None | Some(b' '));
    let is_outer = is_named(b"<<<<<<<") || is_named(b">>>>>>>");
    is_outer || is_named(b"|||||||") || line.trim_ascii_end() == b"======="
}

/// What to do about them.
pub(crate) const TYPOGRAPHIC: &str =
    "typographic quotation marks delimit nothing: write \"..\" or {..}";

const MARKS: [char; 11] = ['“', '”', '„', '‟', '‘', '’', '‚', '«', '»', '‹', '›'];

/// Whether a name begins with a typographic quotation mark.
pub(crate) fn is_typographic(name: &[u8]) -> bool {
    // A character has at most four bytes.
    let mut chunks = name[..name.len().min(4)].utf8_chunks();
    let first = chunks.next().and_then(|chunk| chunk.valid().chars().next());
    first.is_some_and(|c| MARKS.contains(&c))
}

/// Whether a key has typographic quotation marks at its ends. One that is an apostrophe may stand inside.
pub(crate) fn has_typographic(key: &[u8]) -> bool {
    let last = std::str::from_utf8(key)
        .ok()
        .and_then(|key| key.chars().next_back());
    !key.is_ascii() && (is_typographic(key) || last.is_some_and(|c| MARKS.contains(&c)))
}

#[cfg(test)]
mod tests {
    use super::*;

    fn found(find: fn(&[u8]) -> Option<Range<usize>>, text: &str) -> Option<&str> {
        find(text.as_bytes()).map(|span| &text[span])
    }

    #[test]
    fn quotes() {
        let of = |text: &str| quoted(text.as_bytes());
        assert_eq!(of(""), "");
        assert_eq!(of("key84"), "key84");
        assert_eq!(of(" a\n\t b "), "a b");
        assert_eq!(of(&"x".repeat(40)), "x".repeat(40));
        let cut = "x".repeat(39) + "…";
        for length in [41, 42, 43, 319, 320, 321, 322, 5000] {
            assert_eq!(of(&"x".repeat(length)), cut);
        }
        for blanks in [1, 39, 300, 5000] {
            let text = format!("a{}b", " ".repeat(blanks));
            assert_eq!(of(&text), "a b");
            assert_eq!(
                of(&(text + &"x".repeat(50))),
                format!("a b{}…", "x".repeat(36))
            );
        }
        for length in 38..400 {
            let text = "漢".repeat(length);
            let want = if length > 40 { 39 } else { length };
            assert_eq!(of(&text).matches('漢').count(), want);
        }
        assert_eq!(quoted(b"a\xffb\xe6\xbc"), "a\u{fffd}b\u{fffd}");
    }

    #[test]
    fn fields_in_values() {
        assert_eq!(found(field_in_value, "{A,\n  year = 1997\n}"), Some("year"));
        assert_eq!(found(field_in_value, "{A,\r date-x={B}"), Some("date-x"));
        assert_eq!(found(field_in_value, "year = 1997"), None);
        assert_eq!(
            found(field_in_value, "{where\nx = y + z, and\n a == b}"),
            None
        );
        assert_eq!(found(field_in_value, "{http://a.b/?c=d\n&e={f}}"), None);
        assert_eq!(
            found(field_in_value, "{a;\n origin=https://a.b/c;\n}"),
            None
        );
        assert_eq!(found(field_in_value, "{A\nb = c d}"), None);
        assert_eq!(found(field_in_value, "{A\nb = {c} d}"), None);
        assert_eq!(found(field_in_value, "{A\nb = {c}}"), Some("b"));
        assert_eq!(found(field_in_value, "{A\nb = \"c\" # d"), Some("b"));
        assert_eq!(found(field_in_value, "{A\nb = {c\nd"), Some("b"));
    }

    #[test]
    fn entries_in_values() {
        assert_eq!(found(entry_in_value, "A\n  @book{l, t={L}}"), Some("l"));
        assert_eq!(found(entry_in_value, "A @a{b,\n\t@book{l, t}"), Some("l"));
        assert_eq!(found(entry_in_value, "A\n@book{l, t={L}}"), None);
        assert_eq!(found(entry_in_value, "see @book{l, t={L}}"), None);
        assert_eq!(found(entry_in_value, "A\n  @home{l} and @x\n @y"), None);
    }

    #[test]
    fn lost_fields() {
        let all = |text: &'static str| -> Vec<&str> {
            let names = fields_outside(text.as_bytes());
            names.map(|name| &text[name]).collect()
        };
        assert_eq!(all(", month = jan,"), ["month"]);
        assert_eq!(all("note ={x}"), ["note"]);
        assert_eq!(all("the value of x = 3"), [""; 0]);
        assert_eq!(all("to say so, type = \"paper\""), [""; 0]);
        assert_eq!(all("==== part ===="), [""; 0]);
        assert_eq!(all("\n month = jan\n}\n"), ["month"]);
        assert_eq!(all("\n author =\n {A}\n}\n"), ["author"]);
        assert_eq!(all("\n x = y\n and more"), [""; 0]);
        assert_eq!(
            all(",\n author = {A},\n title = \"B\"\n}\n"),
            ["author", "title"]
        );
    }

    #[test]
    fn lost_entries() {
        let all = |text: &'static str| -> Vec<&str> {
            let lost = entries_outside(text.as_bytes());
            lost.map(|lost| &text[lost.span]).collect()
        };
        assert_eq!(all("\n article{k84,\n"), ["article{k84,"]);
        assert_eq!(all("book {k84,\n"), ["book {k84,"]);
        assert_eq!(all("a{k, t = {x}}\nb{l,}"), ["a{k,", "b{l,"]);
        assert_eq!(all("\n{k84, title = {T}}\n"), ["{k84,"]);
        assert_eq!(all("\n{Knuth, D. = x}\n{a, b}"), [""; 0]);
        assert_eq!(all("by {Knuth, D.}"), [""; 0]);
        assert_eq!(all("written by {Knuth,\n"), [""; 0]);
        assert_eq!(all("\\textbf{bold,"), [""; 0]);
    }
}
