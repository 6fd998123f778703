//! Which rows may follow which, and with which detail.

/// The kind of a refused piece's cause, the only one with a detail, and its details.
const CAUSE: u32 = 10;
const CAUSES: std::ops::RangeInclusive<u32> = 2..=10;

/// Kinds as bits.
const VALUE: u16 = 1 << 5;
const CHUNKS: u16 = 1 << 6 | 1 << 7;
const FIELD: u16 = 1 << 4;
/// What starts something new: a preamble, an entry, a definition, damage.
const NEW: u16 = 1 | 1 << 1 | 1 << 8 | 1 << 9;

/// A walk over rows: the kinds that may come next.
pub struct Walk {
    next: u16,
    /// The field names that may follow a value's chunks: in an entry they may, after a definition
    /// not.
    fields: u16,
}

impl Walk {
    pub fn new() -> Self {
        Self {
            next: NEW,
            fields: 0,
        }
    }

    /// Goes on by a row, or says that it may not stand here or have this detail.
    pub fn step(&mut self, kind: u32, detail: u32) -> bool {
        let allowed = kind <= CAUSE && self.next >> kind & 1 == 1;
        if !allowed || !fits(kind, detail) {
            return false;
        }
        self.next = match kind {
            1 | 2 | 9 => 1 << (kind + 1),
            3 => NEW | FIELD,
            4 | 8 => VALUE,
            5 => CHUNKS,
            6 | 7 => NEW | CHUNKS | self.fields,
            _ => NEW,
        };
        match kind {
            1 => self.fields = FIELD,
            8 => self.fields = 0,
            _ => {}
        }
        true
    }

    /// Whether the rows may end here: where something new may start.
    pub fn may_end(&self) -> bool {
        self.next & NEW == NEW
    }
}

fn fits(kind: u32, detail: u32) -> bool {
    match kind {
        CAUSE => CAUSES.contains(&detail),
        _ => detail == 0,
    }
}
