//! The lines of a file, and the places of its bytes in them.

use std::cell::Cell;
use std::collections::TryReserveError;

use crate::memory::push;

/// What some editors put before a text in UTF-8. It is shown nowhere and counted in no column.
pub(crate) const BYTE_ORDER_MARK: &[u8] = b"\xef\xbb\xbf";

/// Where the lines of a file begin. A line ends with LF, with CR LF, or with CR alone.
pub struct Lines<'a> {
    file: &'a [u8],
    begins: Vec<u32>,
    /// The number of the line that was asked for last: the next is mostly near.
    near: Cell<usize>,
    /// The number of the file among those that lend definitions, where it is one of them.
    lender: Option<usize>,
    /// For each part of so many bytes, from where on it is counted and the number of characters before.
    marks: Vec<(u32, u32)>,
}

/// So many bytes are counted again and again; where a line has more, they are counted from a mark.
const SHORT: usize = 256;

/// A line, the first being number 1.
#[derive(Debug, Clone, Copy, PartialEq, Eq)]
pub struct Line<'a> {
    pub number: usize,
    pub begin: usize,
    /// Without the line's end.
    pub text: &'a [u8],
}

impl<'a> Lines<'a> {
    pub fn of(file: &'a [u8]) -> Result<Self, TryReserveError> {
        let mut begins = Vec::new();
        let is_marked = file.starts_with(BYTE_ORDER_MARK);
        let first = if is_marked { BYTE_ORDER_MARK.len() } else { 0 };
        push(&mut begins, first as u32)?;
        for (place, byte) in file.iter().enumerate() {
            let is_end = *byte == b'\n' || *byte == b'\r' && file.get(place + 1) != Some(&b'\n');
            if is_end {
                push(&mut begins, place as u32 + 1)?;
            }
        }
        Ok(Self {
            file,
            begins,
            near: Cell::new(1),
            lender: None,
            marks: marks(file)?,
        })
    }

    /// Those of the file that lends definitions as this number.
    pub fn of_lender(file: &'a [u8], number: usize) -> Result<Self, TryReserveError> {
        Ok(Self {
            lender: Some(number),
            ..Self::of(file)?
        })
    }

    /// Of which of the files that lend definitions these are the lines; of none where they are the lines
    /// of the file itself.
    pub fn lender(&self) -> Option<usize> {
        self.lender
    }

    /// How many there are.
    pub fn count(&self) -> usize {
        self.begins.len()
    }

    /// The file that they are of.
    pub fn file(&self) -> &'a [u8] {
        self.file
    }

    /// The line that has this byte of the file; its end belongs to it.
    pub fn at(&self, place: usize) -> Line<'a> {
        let number = self.number(place);
        let begin = self.begins[number - 1] as usize;
        let next = self.begins.get(number).map(|next| *next as usize);
        let text = &self.file[begin..next.unwrap_or(self.file.len())];
        let text = text.strip_suffix(b"\n").unwrap_or(text);
        Line {
            number,
            begin,
            text: text.strip_suffix(b"\r").unwrap_or(text),
        }
    }

    /// The number of the line that has this byte of the file.
    pub fn number(&self, place: usize) -> usize {
        let near = self.near.get();
        let found = (near..near + 2).find(|number| self.is_in(*number, place));
        let search = || {
            self.begins
                .partition_point(|begin| *begin as usize <= place)
        };
        let number = found.unwrap_or_else(search).max(1);
        self.near.set(number);
        number
    }

    /// Whether the line of this number has this byte of the file.
    fn is_in(&self, number: usize, place: usize) -> bool {
        let begin = |number: usize| self.begins.get(number).map(|begin| *begin as usize);
        let is_after = begin(number - 1).is_some_and(|begin| begin <= place);
        is_after && begin(number).is_none_or(|next| place < next)
    }

    /// The line and the column of a byte. Columns are characters, the first being 1; a byte that is
    /// not UTF-8 counts as one.
    pub fn line_and_column(&self, place: usize) -> (usize, usize) {
        let line = self.at(place);
        let place = place.clamp(line.begin, line.begin + line.text.len());
        let count = if place - line.begin > SHORT {
            self.passed(place) - self.passed(line.begin)
        } else {
            characters(&self.file[line.begin..place])
        };
        (line.number, count + 1)
    }

    /// The characters before a place that is not inside one, or is after an earlier one of its line.
    fn passed(&self, place: usize) -> usize {
        let part = place / SHORT;
        // The place may come before the mark of its part, which is not inside a character.
        let is_before = self.marks[part].0 as usize > place;
        let (mark, count) = self.marks[part - usize::from(is_before)];
        count as usize + characters(&self.file[mark as usize..place])
    }

    /// The same as it is written: `LINE:COLUMN`.
    pub fn place(&self, place: usize) -> String {
        let (line, column) = self.line_and_column(place);
        format!("{line}:{column}")
    }
}

/// A mark for each part of a file, at its first byte that is not inside a character; the first mark is at
/// the file's beginning.
fn marks(file: &[u8]) -> Result<Vec<(u32, u32)>, TryReserveError> {
    let mut marks = Vec::new();
    marks.try_reserve_exact(file.len() / SHORT + 1)?;
    let (mut place, mut count) = (0, 0);
    for part in (0..=file.len()).step_by(SHORT) {
        // A character has at most three such bytes.
        let is_inner = |byte: &&u8| **byte & 0xC0 == 0x80;
        let most = if part == 0 { 0 } else { 3 };
        let inner = file[part..].iter().take(most).take_while(is_inner).count();
        let next = part + inner;
        count += characters(&file[place..next]);
        place = next;
        marks.push((place as u32, count as u32));
    }
    Ok(marks)
}

fn characters(text: &[u8]) -> usize {
    if text.is_ascii() {
        return text.len();
    }
    text.utf8_chunks()
        .map(|chunk| chunk.valid().chars().count() + chunk.invalid().len())
        .sum()
}

#[cfg(test)]
mod tests {
    use super::*;

    fn seen(file: &[u8]) -> Vec<(usize, usize, String)> {
        let lines = Lines::of(file).unwrap();
        (0..=file.len())
            .map(|place| lines.at(place))
            .map(|line| {
                let text = String::from_utf8_lossy(line.text).into_owned();
                (line.number, line.begin, text)
            })
            .collect()
    }

    #[test]
    fn places_of_lines() {
        let first = (1, 0, "a".to_string());
        let second = (2, 3, String::new());
        let third = (3, 4, "bc".to_string());
        let want = [&first, &first, &first, &second, &third, &third, &third];
        assert!(seen(b"a\r\n\nbc").iter().eq(want));
    }

    #[test]
    fn lines_that_end_in_cr_alone() {
        let first = (1, 0, "a".to_string());
        let second = (2, 2, "b".to_string());
        let third = (3, 5, String::new());
        let want = [&first, &first, &second, &second, &second, &third];
        assert!(seen(b"a\rb\r\n").iter().eq(want));
    }

    #[test]
    fn columns() {
        let lines = Lines::of("aé\u{301}x\nb\u{fffd}".as_bytes()).unwrap();
        let all = [0, 1, 3, 5, 6, 7, 8].map(|place| lines.line_and_column(place));
        assert_eq!(
            all,
            [(1, 1), (1, 2), (1, 3), (1, 4), (1, 5), (2, 1), (2, 2)]
        );
        assert_eq!(lines.place(3), "1:3");
    }

    #[test]
    fn columns_of_long_lines() {
        let text = "漢é\u{301}x".repeat(500);
        let lines = Lines::of(text.as_bytes()).unwrap();
        for (column, (place, _)) in (1..).zip(text.char_indices()) {
            assert_eq!(lines.line_and_column(place), (1, column));
        }
        let bytes = [0xffu8; 3000];
        let lines = Lines::of(&bytes).unwrap();
        assert_eq!(lines.line_and_column(2999), (1, 3000));
        let inner = [0x80u8; 3000];
        let lines = Lines::of(&inner).unwrap();
        assert_eq!(lines.line_and_column(2999), (1, 3000));
    }

    /// Columns on two long lines by turns, and on the ends of lines.
    #[test]
    fn columns_of_several_long_lines() {
        for shift in 0..SHORT {
            let first = "é漢x".repeat(100);
            let text = format!("{}\n{first}\r\n{first}\n", "y".repeat(shift));
            let lines = Lines::of(text.as_bytes()).unwrap();
            let begins = [shift + 1, shift + 1 + first.len() + 2];
            for (column, (place, _)) in (1..).zip(first.char_indices()) {
                assert_eq!(lines.line_and_column(begins[0] + place), (2, column));
                assert_eq!(lines.line_and_column(begins[1] + place), (3, column));
            }
            let end = begins[0] + first.len();
            assert_eq!(lines.line_and_column(end), (2, 301));
            assert_eq!(lines.line_and_column(end + 1), (2, 301));
        }
    }

    #[test]
    fn byte_order_mark() {
        let lines = Lines::of(b"\xef\xbb\xbf@a\n@b").unwrap();
        let all = [0, 3, 4, 6].map(|place| lines.line_and_column(place));
        assert_eq!(all, [(1, 1), (1, 1), (1, 2), (2, 1)]);
        assert_eq!(lines.at(0).text, b"@a");
    }
}
