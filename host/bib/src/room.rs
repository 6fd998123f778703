//! The room for the chunks and the text of a literal, of a field, or of all fields. How much fields need is
//! not known before their names are resolved, so that it grows until it is enough.

use proved::Lent;

use crate::chunk::{self, Resolved};
use crate::row::NUMBERS;
use crate::{memory, Refusal};

/// Chunks, and bytes of text, that are lent beside what the value's own literals can need.
const FOR_NAMES: usize = 256;

/// The most text, and of all values of a file also the most chunks, that are given: the numbers of their
/// rows have 32 bits (`mostNumber` of crates/literal/specs/Rows.antt), and more is refused whatever is
/// lent. One value could have more chunks, and is not lent the 86 GB that their rows would take.
const MOST_LENT: usize = 4_294_967_295;

pub(crate) struct Room {
    pub(crate) chunks: usize,
    pub(crate) text: usize,
    /// The chunks and the text that all literals of a file can need, where less is lent at first.
    literals: Option<(usize, usize)>,
}

impl Room {
    /// A literal of n bytes has at most n + 1 chunks and 2 * n bytes of text.
    pub(crate) fn of_literal(length: usize) -> Self {
        Self {
            chunks: length + 1,
            text: 2 * length,
            literals: None,
        }
    }

    /// At first: what a literal of the value's length can need, since its literals stand inside it, and
    /// some for names.
    pub(crate) fn of(rows: &[u32], which: usize, file: usize) -> Self {
        let row = rows.chunks_exact(NUMBERS).nth(which);
        let length = row.map_or(0, |row| row[3].saturating_sub(row[2]) as usize);
        let length = length.min(file);
        Self {
            chunks: length + FOR_NAMES,
            text: 2 * length + FOR_NAMES,
            literals: None,
        }
    }

    /// At first for all values of a file: what its literals can come to, of which there is at most one to
    /// a row. The call then sees by their lengths that it has room, and resolves each of them only once.
    /// Memory is taken only as far as it is written.
    pub(crate) fn sure(rows: usize, file: usize) -> Self {
        Self {
            chunks: file + rows + FOR_NAMES,
            text: 2 * file + FOR_NAMES,
            literals: None,
        }
    }

    /// Where so much cannot be had: most values have one chunk or two, and less text than they have bytes.
    pub(crate) fn of_all(values: usize, file: usize) -> Self {
        Self {
            chunks: 2 * values + FOR_NAMES,
            text: file + FOR_NAMES,
            literals: Some((file + FOR_NAMES, 2 * file + FOR_NAMES)),
        }
    }

    /// More of both, since the refusal does not say which was short. Where it is as much as is ever
    /// lent there is no more.
    pub(crate) fn grow(&mut self) -> Result<(), Refusal> {
        // Memory is taken only where something is written, but each try goes over all values.
        if let Some((chunks, text)) = self.literals.take() {
            self.chunks = self.chunks.max(chunks);
            self.text = self.text.max(text);
            return Ok(());
        }
        if self.chunks >= MOST_LENT && self.text >= MOST_LENT {
            return Err(Refusal::NO_MEMORY);
        }
        self.chunks = (4 * self.chunks).min(MOST_LENT);
        self.text = (4 * self.text).min(MOST_LENT);
        Ok(())
    }

    /// What the call gives in this room; nothing where the room is too short.
    pub(crate) fn resolve(
        &self,
        call: impl FnOnce(&mut Lent) -> proved::Resolved,
    ) -> Result<Option<Resolved>, Refusal> {
        let mut scratch = memory::zeros(proved::LEAST_SCRATCH)?;
        let mut chunks = memory::zeros(self.chunks * chunk::NUMBERS)?;
        let mut text = memory::zeros(self.text)?;
        let answer = call(&mut Lent {
            scratch: &mut scratch,
            chunks: &mut chunks,
            text: &mut text,
        });
        if answer.number != 0 {
            return Refusal::of(answer.number, answer.start, answer.end).unless_room();
        }
        Ok(Some(Resolved::new(chunks, text, answer)))
    }
}
