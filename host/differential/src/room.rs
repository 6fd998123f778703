//! Memory that is lent to be written, with guards around it, and known before each case.

/// Numbers before and after what is lent that must stay as they are.
const GUARD: usize = 8;

/// What can be lent: the numbers of rows, and bytes.
pub trait Lent: Copy + PartialEq + 'static {
    /// How many are a row.
    const ROW: usize;

    /// Zeros, to compare with.
    const ZEROS: &'static [Self];

    /// What the memory holds before a case, at a place.
    fn canary(place: usize) -> Self;

    /// Some of them, printed.
    fn list(some: &[Self]) -> String;
}

impl Lent for u32 {
    const ROW: usize = packer::NUMBERS;
    const ZEROS: &'static [Self] = &[0; 1_024];

    fn canary(place: usize) -> Self {
        0xA500_0000 ^ (place as u32).wrapping_mul(0x9E37_79B1)
    }

    fn list(some: &[Self]) -> String {
        let words: Vec<String> = some.iter().map(u32::to_string).collect();
        words.join(" ")
    }
}

impl Lent for u8 {
    const ROW: usize = packer::BYTES;
    const ZEROS: &'static [Self] = &[0; 4_096];

    fn canary(place: usize) -> Self {
        (u32::canary(place) >> 13) as u8
    }

    fn list(some: &[Self]) -> String {
        let words: Vec<String> = some.iter().map(|byte| format!("{byte:02X}")).collect();
        words.join(" ")
    }
}

/// Such memory; between cases equal to what it was at first.
pub struct Room<T> {
    held: Vec<T>,
    untouched: Vec<T>,
}

impl<T: Lent> Room<T> {
    pub fn new() -> Self {
        Self {
            held: Vec::new(),
            untouched: Vec::new(),
        }
    }

    /// Lends so many.
    pub fn lend(&mut self, length: usize) -> &mut [T] {
        for place in self.held.len()..length + 2 * GUARD {
            self.held.push(T::canary(place));
            self.untouched.push(T::canary(place));
        }
        &mut self.held[GUARD..GUARD + length]
    }

    /// The first so many of what was lent.
    pub fn front(&self, length: usize) -> &[T] {
        &self.held[GUARD..GUARD + length]
    }

    /// Whether, of `length` lent, all but the first `written` is as it was, guards included.
    pub fn rest_is_untouched(&self, length: usize, written: usize) -> bool {
        let rest = GUARD + written..length + 2 * GUARD;
        self.held[..GUARD] == self.untouched[..GUARD]
            && self.held[rest.clone()] == self.untouched[rest]
    }

    /// Whether, of `length` lent, the first are these, and all else is as it was.
    pub fn holds(&self, some: &[T], length: usize) -> bool {
        self.front(some.len()) == some && self.rest_is_untouched(length, some.len())
    }

    /// Whether all that was lent holds zeros, and the guards are as they were.
    pub fn is_zeroed(&self, length: usize) -> bool {
        let mut blocks = self.front(length).chunks(T::ZEROS.len());
        blocks.all(|block| *block == T::ZEROS[..block.len()])
            && self.rest_is_untouched(length, length)
    }

    /// Of `length` lent, what is not as it was, by places from the first that was lent.
    pub fn changed(&self, length: usize) -> impl Iterator<Item = i64> + '_ {
        (0..length + 2 * GUARD)
            .filter(|&i| self.held[i] != self.untouched[i])
            .map(|i| i as i64 - GUARD as i64)
    }

    /// Makes all as it was. Where the call did as it must, only the first `written` are not.
    pub fn renew(&mut self, same: bool, written: usize) {
        let end = match same {
            true => GUARD + written,
            false => self.held.len(),
        };
        self.held[..end].copy_from_slice(&self.untouched[..end]);
    }
}
