//! Encodings of Chinese, Japanese and Korean, with two bytes for most characters. Which bytes may follow
//! each other, and which characters are frequent, is enough to tell them apart; to show a text would need
//! tables of all characters.

use super::tables::{CHINESE, JAPANESE, KOREAN, TRADITIONAL};
use super::{Likely, Worth, LEAST};

#[derive(Clone, Copy)]
pub(crate) struct Double {
    label: &'static str,
    iconv: &'static str,
    /// How many bytes the character has that begins a text, and what it is worth; nothing where none can
    /// begin so.
    step: fn(&[u8]) -> Option<(usize, Worth)>,
    /// How much rarer it is than the commonest.
    rare: Worth,
}

pub(crate) const DOUBLES: [Double; 5] = [
    Double::new("GB18030 (Chinese)", "GB18030", gb18030, 5),
    Double::new("Big5 (Chinese)", "BIG5", big5, 10),
    Double::new("EUC-KR (Korean)", "EUC-KR", euc_kr, 10),
    Double::new("EUC-JP (Japanese)", "EUC-JP", euc_jp, 10),
    Double::new("Shift-JIS (Japanese)", "CP932", shift_jis, 10),
];

/// What characters are worth: those that are frequent, kana, marks, other plain ones, and the further ones.
const FREQUENT: Worth = 40;
const KANA: Worth = 30;
const MARK: Worth = 10;
const PLAIN: Worth = 5;
const FURTHER: Worth = -5;
const RARE: Worth = -20;

/// Letters of ASCII seldom stand directly beside such characters.
const BESIDE: Worth = 15;

impl Double {
    const fn new(
        label: &'static str,
        iconv: &'static str,
        step: fn(&[u8]) -> Option<(usize, Worth)>,
        rare: Worth,
    ) -> Self {
        Self {
            label,
            iconv,
            step,
            rare,
        }
    }

    pub fn likely(&self) -> Likely {
        Likely {
            label: self.label,
            iconv: self.iconv,
            table: None,
        }
    }

    /// What a text would be worth; nothing where it cannot be read so, or makes no sense.
    pub fn worth(&self, text: &[u8]) -> Option<Worth> {
        let (mut worth, mut count, mut place) = (0, 0, 0);
        let mut is_behind_letter = false;
        while place < text.len() {
            let is_letter = text[place].is_ascii_alphabetic();
            let mut length = 1;
            if !text[place].is_ascii() {
                let (step, each) = (self.step)(&text[place..])?;
                (length, worth, count) = (step, worth + each, count + 1);
                let next = text.get(place + step);
                let is_before_letter = next.is_some_and(u8::is_ascii_alphabetic);
                worth -= BESIDE * (Worth::from(is_behind_letter) + Worth::from(is_before_letter));
            }
            is_behind_letter = is_letter;
            place += length;
        }
        // One such pair of bytes may be anything.
        (count > 1 && worth >= LEAST * count).then_some(worth - self.rare)
    }
}

/// Two bytes, where the second is one of these.
fn pair(text: &[u8], is_second: fn(u8) -> bool) -> Option<(u8, u8)> {
    match text {
        [first, second, ..] if is_second(*second) => Some((*first, *second)),
        _ => None,
    }
}

fn plain(first: u8, second: u8, frequent: &[u16]) -> Worth {
    let number = u16::from_be_bytes([first, second]);
    match frequent.binary_search(&number) {
        Ok(_) => FREQUENT,
        Err(_) => PLAIN,
    }
}

fn gb18030(text: &[u8]) -> Option<(usize, Worth)> {
    if let [0x81..=0xfe, b'0'..=b'9', 0x81..=0xfe, b'0'..=b'9', ..] = text {
        return Some((4, RARE));
    }
    let (first, second) = pair(text, |byte| matches!(byte, 0x40..=0x7e | 0x80..=0xfe))?;
    let worth = match (first, second) {
        (0x80 | 0xff, _) => return None,
        (0xa1 | 0xa3, 0xa1..) => MARK,
        (0xa2 | 0xa4..=0xa9, 0xa1..) => FURTHER,
        (0xb0..=0xd7, 0xa1..) => plain(first, second, &CHINESE),
        (0xd8..=0xf7, 0xa1..) => FURTHER,
        _ => RARE,
    };
    Some((2, worth))
}

fn big5(text: &[u8]) -> Option<(usize, Worth)> {
    let (first, second) = pair(text, |byte| matches!(byte, 0x40..=0x7e | 0xa1..=0xfe))?;
    let worth = match first {
        0xa1 | 0xa2 => MARK,
        0xa4..=0xc6 => plain(first, second, &TRADITIONAL),
        0xc9..=0xf9 => FURTHER - PLAIN,
        0xa3 | 0xc7 | 0xc8 => RARE,
        _ => return None,
    };
    Some((2, worth))
}

/// A second byte of the encodings named EUC.
fn is_upper(byte: u8) -> bool {
    matches!(byte, 0xa1..=0xfe)
}

fn euc_kr(text: &[u8]) -> Option<(usize, Worth)> {
    let (first, second) = pair(text, is_upper)?;
    let worth = match first {
        0xa1 | 0xa3 => MARK,
        0xb0..=0xc8 => plain(first, second, &KOREAN),
        0xca..=0xfd => FURTHER,
        0xa2 | 0xa4..=0xac => RARE,
        _ => return None,
    };
    Some((2, worth))
}

fn euc_jp(text: &[u8]) -> Option<(usize, Worth)> {
    match text {
        [0x8e, 0xa1..=0xdf, ..] => return Some((2, FURTHER - PLAIN)),
        [0x8f, 0xa1..=0xfe, 0xa1..=0xfe, ..] => return Some((3, RARE)),
        _ => {}
    }
    let (first, second) = pair(text, is_upper)?;
    Some((2, jis(first, second)?))
}

/// A character of JIS X 0208, by its bytes in EUC-JP.
fn jis(first: u8, second: u8) -> Option<Worth> {
    match (first, second) {
        (0xa4, 0xa1..=0xf3) | (0xa5, 0xa1..=0xf6) => Some(KANA),
        (0xa1 | 0xa3, _) => Some(MARK),
        (0xb0..=0xcf, _) => Some(plain(first, second, &JAPANESE)),
        (0xd0..=0xf4, _) => Some(FURTHER),
        (0xa2 | 0xa6..=0xa8 | 0xad, _) => Some(RARE),
        _ => None,
    }
}

/// With the further characters of Windows, which CP932 has; so has `iconv` a backslash for a backslash.
fn shift_jis(text: &[u8]) -> Option<(usize, Worth)> {
    if matches!(text, [0xa1..=0xdf, ..]) {
        return Some((1, FURTHER - PLAIN));
    }
    let (first, second) = pair(text, |byte| matches!(byte, 0x40..=0x7e | 0x80..=0xfc))?;
    let row = match first {
        0x81..=0x9f => first - 0x81,
        0xe0..=0xef => first - 0xc1,
        0xfa..=0xfc => return Some((2, RARE)),
        _ => return None,
    };
    // Two rows of JIS X 0208 share a first byte.
    let (row, cell) = match second {
        0x9f.. => (2 * row + 1, second - 0x9f),
        0x80.. => (2 * row, second - 0x41),
        _ => (2 * row, second - 0x40),
    };
    let first = 0xa1u8.checked_add(row).filter(|first| *first <= 0xf4)?;
    Some((2, jis(first, 0xa1 + cell)?))
}
