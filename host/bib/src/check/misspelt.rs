//! Names of types and fields that are not known, but near to one that is. People invent fields, so what is
//! far from every known name is never said.

use super::model::{FIELDS, OTHER_FIELDS, OTHER_TYPES, TYPES};
use super::near::distance;

/// No known name is longer, by one letter.
const LONGEST: usize = 24;

static TYPE_NAMES: List<{ TYPES.len() }> = List::of(&TYPES);
static OTHER_TYPE_NAMES: List<{ OTHER_TYPES.len() }> = List::of(&OTHER_TYPES);
static FIELD_NAMES: List<{ FIELDS.len() }> = List::of(&FIELDS);
static OTHER_FIELD_NAMES: List<{ OTHER_FIELDS.len() }> = List::of(&OTHER_FIELDS);

/// Whether a type is one of BibLaTeX or BibTeX.
pub(crate) fn is_type(name: &[u8]) -> bool {
    Small::of(name).is_some_and(|small| TYPE_NAMES.place(&small).is_some())
}

/// The type that this one may mean, if it is not known itself.
pub(crate) fn meant_type(name: &[u8]) -> Option<&'static str> {
    let small = Small::of(name)?;
    let is_known = TYPE_NAMES.place(&small).or(OTHER_TYPE_NAMES.place(&small));
    let is_slip = |known: &&str| known.len() == 4 && is_letter_more_or_less(&small, known);
    let near = || {
        let of_four = || TYPES.into_iter().find(is_slip);
        TYPE_NAMES.near(&small).or_else(of_four)
    };
    is_known.is_none().then(near)?
}

/// Whether a type has a letter of a known one twice, or not at all: few invent such types.
fn is_letter_more_or_less(small: &Small, known: &str) -> bool {
    let (name, known) = (small.text(), known.as_bytes());
    let letters = letters_of(known);
    let is_of_it = small.letters & !letters == 0 && name[0] == known[0];
    is_of_it && name.len().abs_diff(known.len()) == 1 && distance(name, known) == 1
}

/// The field that this one may mean, if it is not known itself.
pub(crate) fn meant_field(name: &[u8]) -> Option<&'static str> {
    let small = Small::of(name)?;
    let is_known = FIELD_NAMES
        .place(&small)
        .or_else(|| OTHER_FIELD_NAMES.place(&small));
    is_known
        .is_none()
        .then(|| FIELD_NAMES.near(&small).or_else(|| exchanged(&small)))?
}

/// A short field of which two letters are exchanged.
fn exchanged(small: &Small) -> Option<&'static str> {
    let is_exchanged = |known: &&str| {
        let (name, known) = (small.text(), known.as_bytes());
        let is_same = name.len() == known.len() && small.letters == letters_of(known);
        is_same && distance(name, known) == 1
    };
    ["date", "doi", "url"].into_iter().find(is_exchanged)
}

/// A name in small letters. Digits and hyphens are put to a name on purpose, as in `note-2`.
struct Small {
    bytes: [u8; LONGEST],
    length: usize,
    letters: u32,
}

impl Small {
    fn of(name: &[u8]) -> Option<Self> {
        let mut bytes = [0; LONGEST];
        let own = bytes.get_mut(..name.len())?;
        own.copy_from_slice(name);
        own.make_ascii_lowercase();
        let is_word = !own.is_empty() && own.iter().all(u8::is_ascii_lowercase);
        let letters = letters_of(own);
        is_word.then_some(Self {
            bytes,
            length: name.len(),
            letters,
        })
    }

    fn text(&self) -> &[u8] {
        &self.bytes[..self.length]
    }
}

/// Names in alphabetical order, with what makes it quick to find one.
struct List<const N: usize> {
    names: &'static [&'static str; N],
    letters: [u32; N],
    /// Where the names that begin with each letter begin.
    begins: [u16; 27],
}

impl<const N: usize> List<N> {
    const fn of(names: &'static [&'static str; N]) -> Self {
        let (mut letters, mut begins, mut n) = ([0; N], [N as u16; 27], N);
        while n > 0 {
            n -= 1;
            let name = names[n].as_bytes();
            letters[n] = letters_of(name);
            let mut letter = (name[0] - b'a') as usize + 1;
            while letter > 0 {
                letter -= 1;
                begins[letter] = n as u16;
            }
        }
        Self {
            names,
            letters,
            begins,
        }
    }

    /// The place of this name in the list.
    fn place(&self, name: &Small) -> Option<usize> {
        let letter = (name.bytes[0] - b'a') as usize;
        let mut places = self.begins[letter] as usize..self.begins[letter + 1] as usize;
        places
            .find(|n| self.letters[*n] == name.letters && self.names[*n].as_bytes() == name.text())
    }

    /// The first name that this one may mean.
    fn near(&self, name: &Small) -> Option<&'static str> {
        let near = self.names.iter().zip(&self.letters);
        // A change puts in one letter and takes out another at most.
        let mut near = near.filter(|(_, letters)| (name.letters ^ **letters).count_ones() <= 2);
        let found = near.find(|(known, _)| is_near(name, known.as_bytes()));
        found.map(|(known, _)| *known)
    }
}

/// Which letters a word has, a bit for each.
const fn letters_of(word: &[u8]) -> u32 {
    let (mut letters, mut n) = (0, 0);
    while n < word.len() {
        letters |= 1 << (word[n] % 32);
        n += 1;
    }
    letters
}

/// Whether one name may have been typed for another. A letter before a known name makes a new one, as in
/// `fjournal`, and so does one that counts, as in `publishera`; among names of four letters, too many are one
/// letter apart, but few have the same letters.
fn is_near(small: &Small, known: &[u8]) -> bool {
    let name = small.text();
    let is_new = name.ends_with(known) || matches!(name.strip_prefix(known), Some([b'a'..=b'd']));
    if is_new || name.len().abs_diff(known.len()) > 1 {
        return false;
    }
    let is_same = || name.len() == known.len() && small.letters == letters_of(known);
    (known.len() > 4 || is_same()) && distance(name, known) == 1
}

/// The fields of an entry that a misspelt one may mean, a bit for each.
#[derive(Default)]
pub(crate) struct Present([u64; FIELDS.len().div_ceil(64)]);

impl Present {
    pub fn add(&mut self, name: &[u8]) {
        let place = Small::of(name).and_then(|small| FIELD_NAMES.place(&small));
        if let Some(n) = place {
            self.0[n / 64] |= 1 << (n % 64);
        }
    }

    pub fn has(&self, name: &str) -> bool {
        let place = FIELDS.binary_search(&name);
        place.is_ok_and(|n| self.0[n / 64] >> (n % 64) & 1 == 1)
    }
}

#[cfg(test)]
mod tests {
    use super::*;

    #[test]
    fn lists_in_order() {
        for list in [&TYPES[..], &OTHER_TYPES, &FIELDS, &OTHER_FIELDS] {
            assert!(list.is_sorted());
            assert!(list.iter().all(|name| name.len() < LONGEST));
        }
        assert!(!FIELDS.iter().any(|name| OTHER_FIELDS.contains(name)));
        assert!(!TYPES.iter().any(|name| OTHER_TYPES.contains(name)));
        for (n, name) in FIELDS.iter().enumerate() {
            let small = Small::of(name.as_bytes()).expect("it is a name");
            assert_eq!(FIELD_NAMES.place(&small), Some(n));
        }
    }

    #[test]
    fn misspelt_names() {
        let field = |name: &str| meant_field(name.as_bytes());
        for (name, known) in [
            ("auhtor", "author"),
            ("Autor", "author"),
            ("authors", "author"),
            ("jounral", "journal"),
            ("yaer", "year"),
            ("titel", "title"),
            ("tile", "title"),
            ("PUBLIHSER", "publisher"),
            ("organisation", "organization"),
            ("howpubished", "howpublished"),
            ("dtae", "date"),
            ("ulr", "url"),
            ("dio", "doi"),
        ] {
            assert_eq!(field(name), Some(known), "{name}");
        }
        let type_ = |name: &str| meant_type(name.as_bytes());
        for (name, known) in [
            ("artcle", "article"),
            ("inproceeding", "inproceedings"),
            ("bokk", "book"),
            ("boook", "book"),
            ("bok", "book"),
            ("mis", "misc"),
            ("msic", "misc"),
            ("masterthesis", "mastersthesis"),
        ] {
            assert_eq!(type_(name), Some(known), "{name}");
        }
    }

    /// Names that are known, invented, or near to no known one.
    #[test]
    fn names_of_their_own() {
        for name in [
            "author",
            "Title",
            "fjournal",
            "note2",
            "note-1",
            "title+an",
            "keyword",
            "usere",
            "published",
            "rating",
            "mood",
            "notes",
            "publishera",
            "blogtitle",
            "user1",
            "isbn13",
            "x",
            "",
            "données",
        ] {
            assert_eq!(meant_field(name.as_bytes()), None, "{name}");
        }
        for name in ["article", "Software", "ebook", "glossdef", "talk", "www"] {
            assert_eq!(meant_type(name.as_bytes()), None, "{name}");
        }
    }
}
