//! What the Rust asks outside the three modules: which fields are verbatim, and what the months are
//! called. And which fields are titles.

use proved::known::{MONTHS, VERBATIM};

use crate::{memory, Kind, Refusal, Rows};

/// Whether a field of this name is verbatim, in small or large letters of ASCII.
pub fn is_verbatim_field(name: &[u8]) -> bool {
    let is_name = |known: &&str| name.eq_ignore_ascii_case(known.as_bytes());
    VERBATIM.iter().any(is_name)
}

/// The fields of a work's own title; of a periodical they are its name.
const OWN_TITLES: [&str; 3] = ["title", "subtitle", "shorttitle"];

/// The fields of the titles of what a work is in, or is printed as.
const OTHER_TITLES: [&str; 7] = [
    "booktitle",
    "booksubtitle",
    "maintitle",
    "mainsubtitle",
    "issuetitle",
    "issuesubtitle",
    "reprinttitle",
];

/// Whether a field of this name has the title of a work, in an entry of this type; both in small or
/// large letters of ASCII. Names of journals, series and events are no titles, and neither are the notes
/// to a title, as `titleaddon`.
pub fn is_title_field(entry_type: &[u8], name: &[u8]) -> bool {
    let is_name = |known: &&str| name.eq_ignore_ascii_case(known.as_bytes());
    let is_periodical = entry_type.eq_ignore_ascii_case(b"periodical");
    OTHER_TITLES.iter().any(is_name) || (!is_periodical && OWN_TITLES.iter().any(is_name))
}

/// The English months: each word with its text. Words are compared byte by byte, so that each is
/// there in small letters, with a large first letter and in large letters; the commonest come first.
pub const ENGLISH_MONTHS: [(&str, &str); 69] = english();

/// The other forms of the months' words. May has no longer one.
#[rustfmt::skip]
const FORMS: [[&str; 12]; 5] = [
    ["Jan", "Feb", "Mar", "Apr", "May", "Jun", "Jul", "Aug", "Sep", "Oct", "Nov", "Dec"],
    ["JAN", "FEB", "MAR", "APR", "MAY", "JUN", "JUL", "AUG", "SEP", "OCT", "NOV", "DEC"],
    ["january", "february", "march", "april", "", "june", "july", "august", "september", "october", "november", "december"],
    ["January", "February", "March", "April", "", "June", "July", "August", "September", "October", "November", "December"],
    ["JANUARY", "FEBRUARY", "MARCH", "APRIL", "", "JUNE", "JULY", "AUGUST", "SEPTEMBER", "OCTOBER", "NOVEMBER", "DECEMBER"],
];

/// The words of `MONTHS`, and then those of each form.
const fn english() -> [(&'static str, &'static str); 69] {
    let mut all = [("", ""); 69];
    let (mut count, mut n) = (0, 0);
    while n < 12 * (1 + FORMS.len()) {
        let (word, text) = MONTHS[n % 12];
        let word = if n < 12 {
            word
        } else {
            FORMS[n / 12 - 1][n % 12]
        };
        if !word.is_empty() {
            all[count] = (word, text);
            count += 1;
        }
        n += 1;
    }
    assert!(count == all.len());
    all
}

/// The flags that [`resolve_file`](crate::resolve_file) takes: for each value, in the order of the
/// rows, what the test says of the name of its field. The value of a definition is not verbatim.
pub fn verbatim_flags(
    file: &[u8],
    rows: &Rows,
    is_verbatim: impl Fn(&[u8]) -> bool,
) -> Result<Vec<bool>, Refusal> {
    let mut flags = Vec::new();
    let mut flag = false;
    for row in rows.iter() {
        match row.kind {
            Kind::FieldName => flag = is_verbatim(&file[row.span()]),
            Kind::DefinitionName => flag = false,
            Kind::Value => memory::push(&mut flags, flag)?,
            _ => {}
        }
    }
    Ok(flags)
}

#[cfg(test)]
mod tests {
    use super::*;

    #[test]
    fn verbatim_fields() {
        assert!(is_verbatim_field(b"url") && is_verbatim_field(b"URLraw"));
        assert!(!is_verbatim_field(b"urls") && !is_verbatim_field(b"title"));
    }

    #[test]
    fn title_fields() {
        assert!(is_title_field(b"book", b"title") && is_title_field(b"inbook", b"BookTitle"));
        assert!(is_title_field(b"article", b"issuesubtitle"));
        for name in [
            "journaltitle",
            "journal",
            "series",
            "eventtitle",
            "titleaddon",
            "origtitle",
        ] {
            assert!(!is_title_field(b"article", name.as_bytes()), "{name}");
        }
        // The title of a periodical is its name, but one issue of it may have a title.
        assert!(!is_title_field(b"Periodical", b"title"));
        assert!(!is_title_field(b"periodical", b"subtitle"));
        assert!(is_title_field(b"periodical", b"issuetitle"));
    }

    /// No word is there twice, and each is its month's name or the first letters of it.
    #[test]
    fn months() {
        assert_eq!(ENGLISH_MONTHS[..12], MONTHS);
        for (n, (word, text)) in ENGLISH_MONTHS.iter().enumerate() {
            let before = &ENGLISH_MONTHS[..n];
            assert!(before.iter().all(|other| other.0 != *word), "{word}");
            let is_whole = word.eq_ignore_ascii_case(text);
            assert!(is_whole || word.eq_ignore_ascii_case(&text[..3]), "{word}");
        }
    }

    #[test]
    fn flags() {
        let file = b"@string{url={x}}@a{k,url={y},t={z},URL={w}}";
        let rows = crate::read(file).unwrap();
        let flags = verbatim_flags(file, &rows, is_verbatim_field).unwrap();
        assert_eq!(flags, [false, true, false, true]);
    }
}
