//! How text of others is shown, so that it cannot steer the terminal.

/// Whether a character would steer the terminal, or turn the direction of text.
pub fn is_steering(c: char) -> bool {
    let turns = matches!(
        c,
        '\u{61c}' | '\u{200e}' | '\u{200f}' | '\u{2028}'..='\u{202e}' | '\u{2066}'..='\u{2069}'
    );
    c.is_control() || turns
}

/// A character of a file, as wide as before; one that steers is shown by another.
pub fn character(c: char) -> char {
    match c {
        '\t' => c,
        '\0'..='\x1f' => char::from_u32(0x2400 + c as u32).unwrap_or(c),
        '\x7f' => '\u{2421}',
        _ if is_steering(c) => char::REPLACEMENT_CHARACTER,
        _ => c,
    }
}

/// The characters of a file's text; a byte that is not UTF-8 is one of them.
pub fn characters(text: &[u8]) -> impl Iterator<Item = char> + '_ {
    text.utf8_chunks().flat_map(|chunk| {
        let valid = chunk.valid().chars().map(character);
        valid.chain(chunk.invalid().iter().map(|_| char::REPLACEMENT_CHARACTER))
    })
}

/// Whether each byte is a character of ASCII that is shown as it is, in one column. All bytes are looked
/// at, many at a time.
pub fn is_plain(text: &[u8]) -> bool {
    text.iter()
        .fold(true, |all, byte| all & matches!(byte, b' '..=b'~'))
}

/// Puts characters as they are.
pub fn put(all: impl Iterator<Item = char>, out: &mut Vec<u8>) {
    for c in all {
        out.extend_from_slice(c.encode_utf8(&mut [0; 4]).as_bytes());
    }
}

/// Puts the characters of a file's text, or of a sentence that may hold some.
pub fn put_text(text: &[u8], out: &mut Vec<u8>) {
    if is_plain(text) {
        out.extend_from_slice(text);
    } else {
        put(characters(text), out);
    }
}

/// A file's name. What steers, and what is not UTF-8, is written by its number.
pub fn name(bytes: &[u8]) -> String {
    let mut name = String::new();
    for chunk in bytes.utf8_chunks() {
        for c in chunk.valid().chars() {
            if is_steering(c) {
                name.extend(c.escape_default());
            } else {
                name.push(c);
            }
        }
        for byte in chunk.invalid() {
            name += &format!("\\x{byte:02x}");
        }
    }
    name
}

#[cfg(test)]
mod tests {
    use super::*;

    #[test]
    fn names() {
        assert_eq!(name("a b é 漢.bib".as_bytes()), "a b é 漢.bib");
        assert_eq!(name(b"a\x1b[2J\n\xff"), "a\\u{1b}[2J\\n\\xff");
        assert_eq!(
            name("\u{202e}bib\u{200f}".as_bytes()),
            "\\u{202e}bib\\u{200f}"
        );
    }

    #[test]
    fn text() {
        let shown: String = characters("\x1b\t\u{61c}\u{200e}\u{85}é".as_bytes()).collect();
        assert_eq!(shown, "\u{241b}\t\u{fffd}\u{fffd}\u{fffd}é");
        let mut out = Vec::new();
        put_text("key \u{200f} ".as_bytes(), &mut out);
        put_text(b"and \x7f", &mut out);
        put_text(b"and ~", &mut out);
        assert_eq!(out, "key \u{fffd} and \u{2421}and ~".as_bytes());
    }
}
