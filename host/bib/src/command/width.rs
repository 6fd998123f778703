//! How many columns a terminal gives a character.

mod table;

use std::cmp::Ordering;

/// 0 for marks that stand on others and for what is not shown, 2 for wide characters, else 1.
pub fn width(c: char) -> usize {
    // The tables begin with U+0300; most characters come before.
    if c < '\u{300}' {
        1
    } else if has(&table::ZERO, c) {
        0
    } else if has(&table::WIDE, c) {
        2
    } else {
        1
    }
}

fn has(ranges: &[(u32, u32)], c: char) -> bool {
    let place = |range: &(u32, u32)| {
        if range.1 < c as u32 {
            Ordering::Less
        } else if range.0 > c as u32 {
            Ordering::Greater
        } else {
            Ordering::Equal
        }
    };
    ranges.binary_search_by(place).is_ok()
}

#[cfg(test)]
mod tests {
    use super::*;

    #[test]
    fn widths() {
        let cases = [
            ('a', 1),
            ('é', 1),
            ('\u{301}', 0),
            ('\u{200d}', 0),
            ('\u{ad}', 1),
            ('漢', 2),
            ('Ａ', 2),
            ('한', 2),
            ('\u{1100}', 2),
            ('\u{1161}', 0),
            ('😀', 2),
            ('\u{10ffff}', 1),
        ];
        for (c, columns) in cases {
            assert_eq!(width(c), columns, "{c:?}");
        }
    }

    #[test]
    fn tables_rise() {
        for table in [&table::ZERO[..], &table::WIDE[..]] {
            assert!(table[0].0 >= 0x300);
            assert!(table.iter().all(|range| range.0 <= range.1));
            assert!(table.windows(2).all(|pair| pair[0].1 < pair[1].0));
        }
    }
}
