//! Names that have one and the same FNV-1a of 32 bits, and files of them: however many buckets an index
//! of names has, all of these fall into one.
//!
//! A step of FNV-1a can be taken back, since its multiplier is odd. So the words that lead from one
//! state to another are found from both sides: the states behind all first halves, looked up among the
//! states from which second halves lead to the end. A word of seven letters has some eight hundred
//! others that do what it does, and two such words, one behind the other, some half a million.

/// FNV-1a: where it begins, its multiplier, and the multiplier's inverse.
const BASIS: u32 = 2_166_136_261;
const MULTIPLIER: u32 = 16_777_619;
const INVERSE: u32 = 899_433_627;

/// What words are made of. The first letter of a name is none of the digits.
const LETTERS: &[u8; 62] = b"abcdefghijklmnopqrstuvwxyzABCDEFGHIJKLMNOPQRSTUVWXYZ0123456789";
const FIRST: usize = 52;

/// Letters of a word, before and behind its middle.
const BEFORE: usize = 3;
const BEHIND: usize = 4;

/// Letters of the part in which the names of a file differ: two words.
pub const DIFFERING: usize = 2 * (BEFORE + BEHIND);

/// The state behind a byte, and the one before it.
fn forth(state: u32, byte: u8) -> u32 {
    (state ^ u32::from(byte)).wrapping_mul(MULTIPLIER)
}

fn back(state: u32, byte: u8) -> u32 {
    state.wrapping_mul(INVERSE) ^ u32::from(byte)
}

/// FNV-1a of 32 bits.
pub fn fnv1a(bytes: &[u8]) -> u32 {
    bytes.iter().fold(BASIS, |state, byte| forth(state, *byte))
}

/// All words of so many letters.
fn words<const N: usize>() -> impl Iterator<Item = [u8; N]> {
    (0..LETTERS.len().pow(N as u32)).map(|number| {
        let mut rest = number;
        [(); N].map(|()| {
            let letter = LETTERS[rest % LETTERS.len()];
            rest /= LETTERS.len();
            letter
        })
    })
}

/// All words of seven letters that lead from a state to another.
fn leading(from: u32, to: u32) -> Vec<Vec<u8>> {
    let forward = |word: [u8; BEFORE]| (word.iter().fold(from, |s, b| forth(s, *b)), word);
    let mut before: Vec<_> = words::<BEFORE>().map(forward).collect();
    before.sort_unstable();
    // By the first bits of a state: where the states begin that have them.
    let first = |state: u32| (state >> 14) as usize;
    let mut begins = vec![0; first(u32::MAX) + 2];
    for (state, _) in &before {
        begins[first(*state) + 1] += 1;
    }
    for n in 1..begins.len() {
        begins[n] += begins[n - 1];
    }
    let mut found = Vec::new();
    for behind in words::<BEHIND>() {
        let state = behind.iter().rev().fold(to, |s, b| back(s, *b));
        let near = &before[begins[first(state)]..begins[first(state) + 1]];
        for (_, word) in near.iter().filter(|(other, _)| *other == state) {
            found.push([&word[..], &behind[..]].concat());
        }
    }
    found
}

/// Names that begin alike and have one FNV-1a: the prefix, and behind it fourteen letters.
pub struct Names {
    prefix: Vec<u8>,
    /// Each of the first words may stand before each of the second.
    first: Vec<Vec<u8>>,
    second: Vec<Vec<u8>>,
}

impl Names {
    /// The prefix must be empty, or begin with a letter.
    pub fn new(prefix: &[u8]) -> Self {
        // Any states in the middle and at the end will do.
        let middle = forth(fnv1a(prefix), b'm').rotate_left(7);
        let end = middle.rotate_left(11) ^ 0x9E37_79B9;
        let mut first = leading(fnv1a(prefix), middle);
        if prefix.is_empty() {
            first.retain(|word| LETTERS[..FIRST].contains(&word[0]));
        }
        Self {
            prefix: prefix.to_vec(),
            first,
            second: leading(middle, end),
        }
    }

    /// How many there are.
    pub fn count(&self) -> usize {
        self.first.len() * self.second.len()
    }

    /// The bytes of each.
    pub fn length(&self) -> usize {
        self.prefix.len() + DIFFERING
    }

    pub fn iter(&self) -> impl Iterator<Item = Vec<u8>> + '_ {
        let pairs = |first: &'_ Vec<u8>| {
            let begin = [&self.prefix[..], first].concat();
            self.second
                .iter()
                .map(move |second| [&begin[..], second].concat())
        };
        self.first.iter().flat_map(pairs)
    }

    /// A file of at most so many bytes: as many definitions as there is room for, in the shortest form,
    /// and a field that uses the name for one in so many of them.
    pub fn file(&self, most: usize, one_in: usize) -> Vec<u8> {
        const PARTS: [&[u8]; 3] = [b"@string{", b"}@a{k,", b"}"];
        // `NAME=1,` and `t=NAME,`
        let each = self.length() + 3;
        // One use more than one in so many there may be.
        let room = most.saturating_sub(PARTS.concat().len() + each);
        let definitions = (room * one_in / (each * (one_in + 1))).min(self.count());
        let mut text = PARTS[0].to_vec();
        for name in self.iter().take(definitions) {
            text.extend([&name[..], b"=1,"].concat());
        }
        text.extend(PARTS[1]);
        for name in self.iter().take(definitions).step_by(one_in) {
            text.extend([b"t=", &name[..], b","].concat());
        }
        text.extend(PARTS[2]);
        text
    }
}

#[cfg(test)]
mod tests {
    use super::*;
    use std::collections::HashSet;
    use std::sync::LazyLock;

    static SHORT: LazyLock<Names> = LazyLock::new(|| Names::new(b""));

    /// FNV-1a as its authors write it, in numbers that are long enough for every product.
    fn plain(bytes: &[u8]) -> u64 {
        let mut hash = 0x811c_9dc5_u64;
        for byte in bytes {
            hash = ((hash ^ u64::from(*byte)) * 0x0100_0193) % (1 << 32);
        }
        hash
    }

    #[test]
    fn fnv() {
        // The authors' own cases.
        for (text, hash) in [
            ("", 0x811c_9dc5),
            ("a", 0xe40c_292c),
            ("foobar", 0xbf9c_f968),
        ] {
            assert_eq!(plain(text.as_bytes()), hash);
            assert_eq!(u64::from(fnv1a(text.as_bytes())), hash);
        }
    }

    /// All names have one hash, and no two are equal.
    fn check(names: &Names, few: usize) {
        assert!(names.count() > 450_000, "{}", names.count());
        let hash = plain(&names.iter().next().unwrap());
        let mut seen = HashSet::new();
        for name in names.iter().step_by(names.count() / few) {
            assert_eq!(plain(&name), hash);
            assert_eq!(name.len(), names.length());
            assert!(name.starts_with(&names.prefix) && name[0].is_ascii_alphabetic());
            assert!(seen.insert(name));
        }
        assert!(seen.len() >= few);
        let words = |words: &[Vec<u8>]| words.iter().collect::<HashSet<_>>().len();
        assert_eq!(words(&names.first) * words(&names.second), names.count());
    }

    #[test]
    fn one_hash() {
        check(&SHORT, 50_000);
    }

    #[test]
    fn one_hash_behind_a_prefix() {
        check(&Names::new("long".repeat(321).as_bytes()), 2_000);
    }

    #[test]
    fn files() {
        let file = SHORT.file(1000, 2);
        let text = String::from_utf8(file).unwrap();
        assert!(text.len() <= 1000 && text.len() > 900);
        let (definitions, fields) = text.split_once("}@a{k,t=").unwrap();
        let definitions = definitions.strip_prefix("@string{").unwrap();
        let definitions: Vec<_> = definitions.split_terminator("=1,").collect();
        let fields: Vec<_> = fields.strip_suffix(",}").unwrap().split(",t=").collect();
        assert!(definitions.iter().step_by(2).eq(&fields));
        assert!(definitions.iter().all(|name| name.len() == DIFFERING));
    }
}
