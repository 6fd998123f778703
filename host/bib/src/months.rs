//! Month words as they are lent.

use proved::File;

use crate::Refusal;

/// For each word the four numbers that say where it and its text stand in the bytes; and the bytes.
pub(crate) struct Months {
    numbers: Vec<u32>,
    words: Vec<u8>,
}

impl Months {
    /// Refused where a place is no number of 32 bits.
    pub(crate) fn of(months: &[(&str, &str)]) -> Result<Self, Refusal> {
        let (mut numbers, mut words) = (Vec::new(), Vec::new());
        let end = |words: &Vec<u8>| u32::try_from(words.len()).map_err(|_| Refusal::NO_MEMORY);
        for (word, text) in months {
            for part in [word, text] {
                numbers.push(end(&words)?);
                words.extend_from_slice(part.as_bytes());
                numbers.push(end(&words)?);
            }
        }
        Ok(Self { numbers, words })
    }

    /// A file with its rows and these months.
    pub(crate) fn beside<'a>(&'a self, bytes: &'a [u8], rows: &'a [u32]) -> File<'a> {
        File {
            bytes,
            rows,
            months: &self.numbers,
            words: &self.words,
        }
    }
}
