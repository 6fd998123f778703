//! Characters that another encoding or HTML left.

use super::entities::named;
use super::finding::{Finding, Lint};
use super::guess::{CP1250, CP1251};

/// The first U+FFFD, which stands where a program could not read a character.
pub(crate) fn replaced(text: &str, place: usize) -> Option<Finding> {
    let at = place + text.find('\u{fffd}')?;
    let message = "the replacement character U+FFFD: a letter was lost when the file was converted";
    let hint = "write the letter that stood here";
    let finding = Finding::lint(Lint::ReplacementCharacter, at, at + 3, message.into());
    Some(finding.with_hint(Some(hint.into())))
}

/// The first character of UTF-8 that was read as Latin-1 or as an encoding of Windows, and written again.
pub(crate) fn mojibake(text: &str, place: usize) -> Option<Finding> {
    let mut before = ' ';
    for (at, c) in text.char_indices() {
        let found = match c {
            '\u{c2}'..='\u{f4}' => twice_encoded(&text[at..], before),
            'Ă' | 'Ĺ' => of_middle(&text[at..]),
            'Р' | 'С' => of_cyrillic(&text[at..]),
            _ => None,
        };
        if let Some((length, meant)) = found {
            return Some(read_otherwise(&text[at..at + length], meant, place + at));
        }
        before = c;
    }
    None
}

/// What is said of characters that stand for another one.
fn read_otherwise(wrong: &str, meant: char, start: usize) -> Finding {
    let shown = if meant > '\u{a0}' {
        format!("`{meant}`")
    } else {
        format!("U+{:04X}", u32::from(meant))
    };
    let message =
        format!("`{wrong}` for {shown}: UTF-8 was read as another encoding, and written again");
    let finding = Finding::lint(Lint::Mojibake, start, start + wrong.len(), message);
    finding.with_hint(Some(format!("write {shown}")))
}

/// How many bytes of a text stand for the bytes of one character, and which that is.
fn twice_encoded(text: &str, before: char) -> Option<(usize, char)> {
    let mut bytes = [0; 4];
    let mut all = text.chars();
    let first = all.next()?;
    bytes[0] = first as u8;
    let count = match first {
        '\u{c2}'..='\u{df}' => 2,
        '\u{e0}'..='\u{ef}' => 3,
        _ => 4,
    };
    let mut length = first.len_utf8();
    let mut is_sure = false;
    for byte in &mut bytes[1..count] {
        let c = all.next()?;
        *byte = continuation(c)?;
        is_sure |= !is_usual(first, c);
        length += c.len_utf8();
    }
    let meant = std::str::from_utf8(&bytes[..count]).ok()?.chars().next()?;
    let behind = all.next().unwrap_or(' ');
    let touches = before.is_ascii_lowercase() || behind.is_ascii_lowercase();
    // Letters of the West, of Greek and of Cyrillic, and punctuation; of the others there are too many.
    let is_likely = match bytes[0] {
        0xc2..=0xc5 | 0xce..=0xd1 => is_sure || touches,
        0xe2 => is_sure || bytes[1] == 0x80,
        0xe0..=0xf4 => is_sure,
        _ => false,
    };
    is_likely.then_some((length, meant))
}

/// The same where Windows-1250 was taken for it, as in `Ĺ™` for `ř`: behind the letter must stand a sign that stands
/// behind no letter in text.
fn of_middle(text: &str) -> Option<(usize, char)> {
    let sign = text.chars().nth(1)?;
    "ˇ˘¤¦§¨©¬®±˛´µ¶·¸˝™€†‡‰"
        .contains(sign)
        .then(|| twice_in(CP1250, text))?
}

/// The same where Windows-1251 was taken for it, as in `РњРѕ` for `Мо`: two such letters in a row are wanted, since
/// `Р` and `С` begin words too.
fn of_cyrillic(text: &str) -> Option<(usize, char)> {
    let (length, meant) = twice_in(CP1251, text)?;
    let (_, next) = twice_in(CP1251, &text[length..])?;
    let is_letter = |c: char| matches!(c, 'Ѐ'..='џ');
    (is_letter(meant) && is_letter(next)).then_some((length, meant))
}

/// How many bytes of a text stand for the two bytes of one character in this table, and which that is.
fn twice_in(table: &str, text: &str) -> Option<(usize, char)> {
    let mut length = 0;
    let mut bytes = [0; 2];
    for (byte, c) in bytes.iter_mut().zip(text.chars()) {
        let place = table.chars().position(|known| known == c)?;
        *byte = 0x80 + place as u8;
        length += c.len_utf8();
    }
    let meant = std::str::from_utf8(&bytes).ok()?.chars().next()?;
    (bytes[0] >= 0xc2 && bytes[1] < 0xc0).then_some((length, meant))
}

/// The byte that Latin-1 or Windows-1252 has for a character, if it continues one of UTF-8.
fn continuation(c: char) -> Option<u8> {
    const WINDOWS: &str = "€\u{81}‚ƒ„…†‡ˆ‰Š‹Œ\u{8d}Ž\u{8f}\u{90}‘’“”•–—˜™š›œ\u{9d}žŸ";
    if matches!(c, '\u{80}'..='\u{bf}') {
        return Some(c as u8);
    }
    let found = WINDOWS.chars().position(|one| one == c)?;
    Some(0x80 + found as u8)
}

/// Whether a sign may follow a letter as it is meant: quotation marks, dashes and blanks may follow every one,
/// marks of units an Å, and marks of names small letters.
fn is_usual(letter: char, sign: char) -> bool {
    let any = "‚„…‹‘’“”•–—›«»\u{a0}";
    let others = "™®°±²³·¹º½ª";
    any.contains(sign) || matches!(letter, 'Å' | 'à'..='ô') && others.contains(sign)
}

/// The first character that is written as HTML writes it.
pub(crate) fn entity(text: &[u8], place: usize) -> Option<Finding> {
    let mut from = 0;
    loop {
        let mut at = from + text[from..].iter().position(|byte| *byte == b'&')?;
        from = at + 1;
        // Programs put braces around the `&` of an entity that they do not know: `{\&}amp;`.
        if text[..at].ends_with(b"{\\") && text.get(from) == Some(&b'}') {
            (at, from) = (at - 2, from + 1);
        }
        // The longest have eight letters, or a number of seven digits.
        let few = &text[from..text.len().min(from + 10)];
        let Some(length) = few.iter().position(|byte| *byte == b';') else {
            continue;
        };
        let Some(meant) = character(&few[..length]) else {
            continue;
        };
        let end = from + length + 1;
        let wrong = String::from_utf8_lossy(&text[at..end]);
        let message = format!("`{wrong}` is a character as HTML writes it");
        let hint = match meant {
            '&' => "write `\\&`; in a URL, `&`".to_string(),
            '\u{a0}' => "write `~`".to_string(),
            c if c.is_control() || c.is_whitespace() => format!("write U+{:04X}", u32::from(c)),
            c => format!("write `{c}`"),
        };
        let finding = Finding::lint(Lint::HtmlEntity, place + at, place + end, message);
        return Some(finding.with_hint(Some(hint)));
    }
}

/// The character that HTML has for this name or number.
fn character(name: &[u8]) -> Option<char> {
    let number = |digits: &[u8], radix| {
        let digits = std::str::from_utf8(digits).ok()?;
        char::from_u32(u32::from_str_radix(digits, radix).ok()?)
    };
    match name {
        [b'#', b'x' | b'X', digits @ ..] => number(digits, 16),
        [b'#', digits @ ..] => number(digits, 10),
        _ => named(name),
    }
}

#[cfg(test)]
mod tests {
    use super::*;

    /// The text that a finding is about.
    fn found(find: fn(&str, usize) -> Option<Finding>, text: &str) -> Option<&str> {
        find(text, 0).map(|finding| &text[finding.start..finding.end])
    }

    #[test]
    fn read_as_another_encoding() {
        for (text, wrong, meant) in [
            ("JosÃ© Author", "Ã©", "é"),
            ("pages 1â€“2", "â€“", "–"),
            ("donâ€™t", "â€™", "’"),
            ("PaweÅ‚", "Å‚", "ł"),
            ("Ã–sterreich", "Ã–", "Ö"),
            ("25Â°C", "Â°", "°"),
            ("Î±-helix", "Î±", "α"),
            ("â‰¤ 3", "â‰¤", "≤"),
            ("DvoĹ™Ăˇk", "Ĺ™", "ř"),
            ("РњРѕСЃРєРІР°", "Рњ", "М"),
        ] {
            assert_eq!(found(mojibake, text), Some(wrong), "{text}");
            assert_eq!(
                mojibake(text, 0).unwrap().hint,
                Some(format!("write `{meant}`"))
            );
        }
        for text in [
            "José Author",
            "ÇÃO – ÃO",
            "«RÉSUMÉ»",
            "„JÄ“",
            "PÅ” och",
            "10 Å² of it",
            "5 Å–8 Å",
            "\u{e2}”, he said",
            "NESTLÉ®",
            "Nestlé®–Group",
            "naïve",
            "PĂŞUNE",
            "СРЂ и РОССИЯ",
        ] {
            assert_eq!(found(mojibake, text), None, "{text}");
        }
    }

    #[test]
    fn characters_of_html() {
        let found = |text: &'static str| {
            let finding = entity(text.as_bytes(), 0)?;
            Some((&text[finding.start..finding.end], finding.hint?))
        };
        for (text, wrong, hint) in [
            ("A &amp; B", "&amp;", "write `\\&`; in a URL, `&`"),
            ("Ren&eacute;", "&eacute;", "write `é`"),
            ("&#233;", "&#233;", "write `é`"),
            ("&#xE9;", "&#xE9;", "write `é`"),
            ("& &thetasym;", "&thetasym;", "write `ϑ`"),
            ("a&nbsp;b", "&nbsp;", "write `~`"),
            ("&#10;", "&#10;", "write U+000A"),
            ("it&apos;s", "&apos;", "write `'`"),
            ("A {\\&}amp; B", "{\\&}amp;", "write `\\&`; in a URL, `&`"),
        ] {
            assert_eq!(found(text), Some((wrong, hint.to_string())), "{text}");
        }
        for text in [
            "",
            "&",
            "A & B; C",
            "AT&T; R&D;",
            "?a=1&b=2;",
            "&;",
            "&#;",
            "&#x110000;",
        ] {
            assert_eq!(found(text), None, "{text}");
        }
    }
}
