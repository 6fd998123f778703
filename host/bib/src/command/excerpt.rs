//! A source line as it is shown, with what goes before the marks.

use crate::shown::{self, characters};
use crate::width::width;

/// What stands where a line was cut.
const CUT: char = '…';

/// A tab goes to the next stop, and terminals have one every eight columns.
const TAB: usize = 8;

/// The marks of a tab, which may have the most.
const MARKS: &str = "^^^^^^^^";

/// Puts a line, around the byte `at`, in at most so many columns: a terminal must not break it, or the
/// marks are lost. There is at least one column. Then, on the next line, blanks up to the columns of the
/// character at the place; tabs before it are tabs. Answers the marks that belong there, one for each of
/// these columns.
pub fn put(line: &[u8], at: usize, most: usize, out: &mut Vec<u8>) -> &'static str {
    let (before, after) = line.split_at(at.min(line.len()));
    let tail = &before[before.len().saturating_sub(most)..];
    let head = &after[..after.len().min(most)];
    if shown::is_plain(tail) && shown::is_plain(head) {
        put_plain(before, after, most, out);
        &MARKS[..1]
    } else {
        let count = put_any(before, after, most, out);
        &MARKS[..count]
    }
}

/// Where each byte that may be shown is a character of one column. A file may have millions of findings
/// on such lines, so that nothing is allocated.
fn put_plain(before: &[u8], after: &[u8], most: usize, out: &mut Vec<u8>) {
    let is_long = before.len() + after.len().max(1) > most;
    let mut blanks = before.len();
    if is_long && before.len() > most * 5 / 8 {
        blanks = most * 5 / 8;
        if blanks > 0 {
            put_cut(out);
            out.extend_from_slice(&before[before.len() + 1 - blanks..]);
        }
    } else {
        out.extend_from_slice(before);
    }
    let room = most.saturating_sub(blanks);
    if is_long && after.len() > room {
        if room > 0 {
            out.extend_from_slice(&after[..room - 1]);
            put_cut(out);
        }
    } else {
        out.extend_from_slice(after);
    }
    out.push(b'\n');
    out.resize(out.len() + blanks, b' ');
}

fn put_cut(out: &mut Vec<u8>) {
    out.extend_from_slice(CUT.encode_utf8(&mut [0; 4]).as_bytes());
}

fn put_any(before: &[u8], after: &[u8], most: usize, out: &mut Vec<u8>) -> usize {
    let (mut left, more_left) = last(before, most);
    let (mut right, more_right) = first(after, most);
    if more_left || more_right || columns(&left) + columns(&right).max(1) > most {
        cut_left(&mut left, more_left, most * 5 / 8);
        let room = most.saturating_sub(columns(&left));
        cut_right(&mut right, more_right, room);
    }
    shown::put(left.iter().chain(&right).copied(), out);
    out.push(b'\n');
    let (indent, marks) = marked(&left, right.first().copied());
    shown::put(indent.iter().flat_map(|c| blank(*c)), out);
    marks
}

/// What is shown before the columns of the character at the place, and how many these are. One that takes
/// no column is drawn in those of the character before it. Where there is none before it, or the line ends
/// at the place, it is one column.
fn marked(left: &[char], at: Option<char>) -> (&[char], usize) {
    let at = at.unwrap_or(' ');
    let drawn_on = left.iter().rposition(|c| column_of(*c) > 0);
    let (before, c) = match drawn_on.filter(|_| column_of(at) == 0) {
        Some(place) => (&left[..place], left[place]),
        None => (left, at),
    };
    let marks = match c {
        '\t' => columns_of_tab(before),
        _ => width(c).max(1),
    };
    (before, marks)
}

/// How many columns a tab takes behind a text. The last tab of the text went to a stop.
fn columns_of_tab(before: &[char]) -> usize {
    let from_stop = before.iter().rev().take_while(|c| **c != '\t');
    let columns: usize = from_stop.map(|c| width(*c)).sum();
    TAB - columns % TAB
}

/// The first characters of a text, at most so many, and whether there are more behind.
fn first(text: &[u8], most: usize) -> (Vec<char>, bool) {
    // A character has at most four bytes; the last bytes of the head may be inside one.
    let head = |most: usize| &text[..text.len().min(most)];
    let wide = if head(most).is_ascii() { 1 } else { 4 };
    let mut all = characters(head(wide * (most + 1)));
    let few = all.by_ref().take(most).collect();
    (few, all.next().is_some())
}

/// The last characters of a text, at most so many, and whether there are more before.
fn last(text: &[u8], most: usize) -> (Vec<char>, bool) {
    // A character has at most four bytes; the first bytes of the tail may be inside one.
    let tail = |most: usize| &text[text.len().saturating_sub(most)..];
    let wide = if tail(most).is_ascii() { 1 } else { 4 };
    let tail = tail(wide * (most + 1));
    let all: Vec<char> = characters(tail).collect();
    let kept = all.len().min(most);
    let more = tail.len() < text.len() || kept < all.len();
    (all[all.len() - kept..].to_vec(), more)
}

/// To the last columns, if there are more, or more characters before.
fn cut_left(left: &mut Vec<char>, more: bool, room: usize) {
    if more || columns(left) > room {
        let turned: Vec<char> = left.iter().rev().copied().collect();
        let first = left.len() - length_of_first(&turned, room.saturating_sub(1));
        left.splice(..first, (room > 0).then_some(CUT));
    }
}

/// To so many columns, if there are more, or more characters after.
fn cut_right(right: &mut Vec<char>, more: bool, room: usize) {
    if more || columns(right) > room {
        right.truncate(length_of_first(right, room.saturating_sub(1)));
        right.extend((room > 0).then_some(CUT));
    }
}

/// As much of a line as has so many columns.
pub fn cut(line: &str, most: usize) -> String {
    let all: Vec<char> = line.chars().collect();
    all[..length_of_first(&all, most)].iter().collect()
}

fn columns(text: &[char]) -> usize {
    text.iter().map(|c| column_of(*c)).sum()
}

fn column_of(c: char) -> usize {
    if c == '\t' {
        TAB
    } else {
        width(c)
    }
}

/// As wide as the character, and empty to look at.
fn blank(c: char) -> impl Iterator<Item = char> {
    let (blank, count) = if c == '\t' {
        ('\t', 1)
    } else {
        (' ', width(c))
    };
    std::iter::repeat_n(blank, count)
}

/// How many of the first characters fit into so many columns.
fn length_of_first(text: &[char], most: usize) -> usize {
    let mut used = 0;
    let fits = |c: &&char| {
        used += column_of(**c);
        used <= most
    };
    text.iter().take_while(fits).count()
}

#[cfg(test)]
mod tests {
    use super::*;

    /// The line, and what stands below it.
    fn parted(out: Vec<u8>) -> (String, String) {
        let text = String::from_utf8(out).unwrap();
        let (line, below) = text.split_once('\n').unwrap();
        (line.into(), below.into())
    }

    /// The line as it is shown, and its marks below it.
    fn shown(line: &[u8], at: usize, most: usize) -> (String, String) {
        let mut out = Vec::new();
        let marks = put(line, at, most, &mut out);
        out.extend(marks.bytes());
        parted(out)
    }

    /// Neither the line nor its marks pass any width, wherever the place is.
    #[test]
    fn any_width() {
        let lines: [&[u8]; 6] = [
            b"",
            b"short",
            "漢字漢字漢字漢字漢字漢字".as_bytes(),
            "a\tb\tc\te\u{301}e\u{301}\tf".as_bytes(),
            "\u{301}漢\u{301}\u{302}\t\u{301}\t\u{200b}".as_bytes(),
            b"\x1b\xff\xe6\xbc\0",
        ];
        for line in lines.iter().map(|line| line.repeat(9)) {
            for most in 1..100 {
                for at in 0..=line.len() {
                    let (text, below) = shown(&line, at, most);
                    let wide = |text: &str| columns(&text.chars().collect::<Vec<_>>());
                    assert!(wide(&text) <= most, "{most} {at} {text:?}");
                    assert!(wide(&below) <= most, "{most} {at} {text:?} {below:?}");
                    assert!(below.ends_with('^'), "{most} {at} {text:?}");
                }
            }
        }
    }

    /// What is quick says what the other way does.
    #[test]
    fn plain_lines() {
        let line: Vec<u8> = (b' '..=b'~').chain(b'0'..=b'9').collect();
        for length in [0, 1, 2, 9, 50, 79, 80, line.len()] {
            for (most, at) in (0..100).flat_map(|most| (0..=length).map(move |at| (most, at))) {
                let (before, after) = line[..length].split_at(at);
                let (mut plain, mut any) = (Vec::new(), Vec::new());
                put_plain(before, after, most, &mut plain);
                assert_eq!(put_any(before, after, most, &mut any), 1);
                assert_eq!(parted(plain), parted(any), "{length} {at} {most}");
            }
        }
    }

    /// Each column of the character at the place has a mark, and no other.
    #[test]
    fn whole_characters() {
        let cases: [(&str, usize, &str); 20] = [
            ("k é,", 2, "  ^"),
            ("k 漢,", 2, "  ^^"),
            ("漢漢,", 3, "  ^^"),
            ("漢漢,", 6, "    ^"),
            ("😀", 0, "^^"),
            // At the end of the line.
            ("", 0, "^"),
            ("漢", 3, "  ^"),
            ("漢", 9, "  ^"),
            // What takes no column, on others and where there is none.
            ("xe\u{301}\u{302}y", 2, " ^"),
            ("xe\u{301}\u{302}y", 4, " ^"),
            ("x漢\u{301}y", 4, " ^^"),
            ("x\u{200b}y", 1, "^"),
            ("\u{301}\u{302}y", 2, "^"),
            // What steers is shown by another.
            ("x\x1b[2J", 1, " ^"),
            ("x\u{202e}y", 1, " ^"),
            // Tabs go to the next stop.
            ("@\ta", 1, " ^^^^^^^"),
            ("12345678\ta", 8, "        ^^^^^^^^"),
            ("\t漢\ta", 4, "\t  ^^^^^^"),
            ("\ta", 1, "\t^"),
            ("x\t\u{301}", 2, " ^^^^^^^"),
        ];
        for (line, at, below) in cases {
            assert_eq!(shown(line.as_bytes(), at, 79).1, below, "{line:?} {at}");
        }
    }

    /// A byte that is not UTF-8 is one character.
    #[test]
    fn other_bytes() {
        let marks = |at: usize| shown(b"x\xe6\xbc\xff\xe6\xbc\xa2", at, 79).1;
        assert_eq!([1, 2, 3, 4].map(marks), [" ^", "  ^", "   ^", "    ^^"]);
    }

    #[test]
    fn long_lines() {
        let line = "x".repeat(30) + "y" + &"z".repeat(30);
        let (text, below) = shown(line.as_bytes(), 30, 16);
        assert_eq!(text, "…xxxxxxxxxyzzzz…");
        assert_eq!(below, " ".repeat(10) + "^");
        assert_eq!(cut("abc漢字", 6), "abc漢");
    }

    /// A wide character is shown whole with both of its marks, or cut with the one mark of the cut.
    #[test]
    fn wide_characters_at_the_cut() {
        let line = "漢".repeat(20);
        let cases = [
            (&line[..], 30, 16, "…漢漢漢漢漢漢漢…", "         ^^"),
            (&line, 30, 5, "…漢…", "   ^"),
            (&line, 30, 4, "…漢…", " ^^"),
            ("漢漢", 3, 4, "漢漢", "  ^^"),
            ("漢漢", 3, 3, "…漢", " ^^"),
        ];
        for (line, at, most, text, below) in cases {
            let want = (text.to_string(), below.to_string());
            assert_eq!(shown(line.as_bytes(), at, most), want, "{most}");
        }
    }
}
