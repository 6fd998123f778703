//! Bytes without a grammar, valid UTF-8 or not.

use crate::symbols::SEQUENCES;
use crate::Random;

const GRAMMAR: &[u8] = b"@@@aakk{{{}}}\"\",,==##%%\\\\\n\n  11.";

/// Writes bytes without a grammar.
pub struct Bytes<'a> {
    pub random: &'a mut Random,
    pub out: &'a mut Vec<u8>,
}

impl Bytes<'_> {
    /// A file of at most about `most` bytes, after what is there already.
    pub fn file(&mut self, most: usize) {
        let length = self.random.length(most);
        let manner = self.random.below(4);
        while self.out.len() < length {
            match manner {
                0 => self.out.push(self.random.next() as u8),
                1 => self.out.push(self.random.next() as u8 & 0x7F),
                2 => self.grammar(),
                _ if self.random.one_in(6) => {
                    let sequence = self.random.pick(&SEQUENCES);
                    self.out.extend_from_slice(sequence);
                }
                _ => self.grammar(),
            }
        }
    }

    fn grammar(&mut self) {
        let byte = GRAMMAR[self.random.below(GRAMMAR.len())];
        self.out.push(byte);
    }
}
