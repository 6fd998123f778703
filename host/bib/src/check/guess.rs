//! Which encoding bytes are in that are not UTF-8: guessed by what the text would become.

mod double;
mod single;
mod system;
mod tables;

use std::cmp::Reverse;

use double::DOUBLES;
use single::SINGLES;
pub(crate) use tables::{CP1250, CP1251};

/// An encoding that may be the one.
#[derive(Clone, Copy)]
pub(crate) struct Likely {
    /// What people call it, and what `iconv` does.
    pub label: &'static str,
    pub iconv: &'static str,
    /// Its characters from the byte 80 on, where it has one byte for each.
    table: Option<&'static str>,
}

/// What a text would be worth, read so: in tenths of what a frequent letter at a likely place is worth
/// half of.
type Worth = i32;

/// A second encoding is named where it is worth nearly as much as the first.
const NEAR: Worth = 25;

/// A text is taken for one of an encoding where each of its characters, on the average, is worth so much.
const LEAST: Worth = 3;

/// So far back the beginning of a character is looked for.
const FAR: usize = 256;

impl Likely {
    /// Whether it has two bytes for most characters.
    pub fn is_double(&self) -> bool {
        self.table.is_none()
    }

    /// The first byte of a text of which this makes another character than that.
    pub fn differs(&self, other: &Self, text: &[u8]) -> Option<usize> {
        if self.is_double() || other.is_double() {
            return None;
        }
        let all: Vec<u8> = (0x80..=0xff).collect();
        let (one, other) = (self.decoded(&all)?, other.decoded(&all)?);
        let differ = one
            .chars()
            .zip(other.chars())
            .map(|(one, other)| one != other);
        let differ: Vec<bool> = differ.collect();
        text.iter()
            .position(|byte| *byte >= 0x80 && differ[usize::from(byte - 0x80)])
    }

    /// Whether a text may be in it.
    pub fn fits(&self, text: &[u8]) -> bool {
        let all = guess(text);
        all.iter().any(|likely| likely.iconv == self.iconv)
    }

    /// The last place up to this one where a character of a line surely begins. Of encodings with two bytes, no character but a single byte
    /// has one below 0x30, as a blank or a comma is.
    pub fn begin(&self, line: &[u8], place: usize) -> Option<usize> {
        if !self.is_double() {
            return Some(place);
        }
        let least = place.saturating_sub(FAR);
        let single = line[least..place].iter().rposition(|byte| *byte < 0x30);
        single
            .map(|single| least + single + 1)
            .or((least == 0).then_some(0))
    }

    /// A text as it would read, where that is known.
    pub fn decoded(&self, text: &[u8]) -> Option<String> {
        let Some(table) = self.table else {
            return system::decoded(self.iconv, text);
        };
        let table: Vec<char> = table.chars().collect();
        let decode = |byte: &u8| match byte.checked_sub(0x80) {
            None => char::from(*byte),
            Some(place) => table[usize::from(place)],
        };
        Some(text.iter().map(decode).collect())
    }
}

/// The encodings that a text may be in, the likeliest first: none, one or two. Of encodings that make the
/// same of it, the first is named.
pub(crate) fn guess(text: &[u8]) -> Vec<Likely> {
    let singles = SINGLES.iter().filter_map(|single| {
        let worth = single.worth(text)?;
        Some((worth, single.likely()))
    });
    let doubles = DOUBLES.iter().filter_map(|double| {
        let worth = double.worth(text)?;
        Some((worth, double.likely()))
    });
    let mut all: Vec<(Worth, Likely)> = singles.chain(doubles).collect();
    all.sort_by_key(|(worth, _)| Reverse(*worth));
    let Some((best, first)) = all.first().copied() else {
        return Vec::new();
    };
    let is_other = |likely: &Likely| {
        let read = likely.decoded(text);
        read.is_none() || read != first.decoded(text)
    };
    let mut rest = all.iter().skip(1);
    let second = rest.find(|(worth, likely)| worth + NEAR >= best && is_other(likely));
    let second = second.map(|(_, likely)| *likely);
    [first].into_iter().chain(second).collect()
}

#[cfg(test)]
mod tests {
    use super::*;

    /// The first guess of a text.
    fn first(text: &[u8]) -> &'static str {
        guess(text).first().map_or("", |likely| likely.iconv)
    }

    /// What is guessed of names and titles as Python's codecs encode them.
    #[test]
    fn names_and_titles() {
        for (text, want) in [
            (&b"Kurt G\xf6del and Andr\xe9 Weil"[..], "WINDOWS-1252"),
            (b"S\xf8ren Kierkegaard", "WINDOWS-1252"),
            (b"Garc\xeda M\xe1rquez \x96 Cien a\xf1os", "WINDOWS-1252"),
            (b"Kurt G\x9adel, Andr\x8e Weil, M\x9fller", "MACINTOSH"),
            (b"Garc\x92a M\x87rquez", "MACINTOSH"),
            (
                b"\xd8e\xe8 a \xf8\xedjen, Anton\xedn Dvo\xf8\xe1k, \x8ai\x9aka",
                "WINDOWS-1250",
            ),
            (b"Stanis\xb3aw Lem, Micha\xb3 \xaeeromski", "ISO-8859-2"),
            (b"c\xbdur et \xe2me", "ISO-8859-15"),
            (b"\xcb\xe5\xe2 \xd2\xee\xeb\xf1\xf2\xee\xe9", "WINDOWS-1251"),
            (b"\xec\xc5\xd7 \xf4\xcf\xcc\xd3\xd4\xcf\xca", "KOI8-R"),
            (
                b"\xd6\xd0\xb9\xfa\xcf\xb5\xcd\xb3\xd1\xd0\xbe\xbf",
                "GB18030",
            ),
            (b"\xa4\xa4\xb0\xea\xa8t\xb2\xce\xac\xe3\xa8s", "BIG5"),
            (
                b"\xb1\xe8\xc3\xb6\xbc\xf6, \xc7\xd1\xb1\xb9 \xbf\xac\xb1\xb8",
                "EUC-KR",
            ),
            (
                b"\xa5\xb3\xa5\xf3\xa5\xd4\xa5\xe5\xa1\xbc\xa5\xbf\xa4\xce\xb8\xa6\xb5\xe6",
                "EUC-JP",
            ),
            (
                b"\x83R\x83\x93\x83s\x83\x85\x81[\x83^\x82\xcc\x8c\xa4\x8b\x86",
                "CP932",
            ),
            (b"\x8d\x82\x8b\xb4", "CP932"),
        ] {
            assert_eq!(first(text), want, "{text:x?}");
        }
    }

    /// Where two fit, both are named.
    #[test]
    fn two_that_fit() {
        let names: Vec<_> = guess(b"Paul Erd\xf5s")
            .iter()
            .map(|likely| likely.iconv)
            .collect();
        assert_eq!(names, ["WINDOWS-1252", "WINDOWS-1250"]);
    }

    #[test]
    fn nothing_fits() {
        for text in [
            &b"\x81\x00\xff\x8d\x00"[..],
            b"\x9d\x9d\x9d x",
            b"a\xb7\xb7b\x7f\x81\x8d",
        ] {
            assert_eq!(first(text), "", "{text:x?}");
        }
    }
}
