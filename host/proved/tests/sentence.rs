//! Sentence case, byte by byte: what is written and what is not, in which order it is refused, and what may
//! surprise. Every case is worked out by hand from src/chunk.rs.

use proved::{format_sentence, Answer};

const NOT_UTF8: u32 = 2;
const NO_ROOM: u32 = 16;
const BAD_ROWS: u32 = 17;

/// What the room holds before a call.
const UNTOUCHED: u8 = 0xA5;

const NORMAL: u32 = 0;
const VERBATIM: u32 = 1;
const MATH: u32 = 2;

/// "a", a letter of two bytes that becomes three characters if it is raised, and a blank.
const TEXT: &[u8] = "aΐ ".as_bytes();

/// The answer in so much room, and that room with eight bytes behind it.
fn called(text: &[u8], rows: &[u32], room: usize) -> (Answer, Vec<u8>) {
    let mut bytes = vec![UNTOUCHED; room + 8];
    let answer = format_sentence(text, rows, &mut bytes[..room]);
    (answer, bytes)
}

/// That a call is refused so in every one of these rooms, and writes nothing.
#[track_caller]
fn refused(text: &[u8], rows: &[u32], rooms: &[usize], number: u32, place: u64) {
    for &room in rooms {
        let (answer, bytes) = called(text, rows, room);
        assert_eq!(answer, Answer::refused(number, place, place), "{room}");
        assert!(bytes.iter().all(|byte| *byte == UNTOUCHED), "{room}");
    }
}

/// That chunks are written so: in just this room and in more, and not in less.
#[track_caller]
fn written(chunks: &[(u32, &str)], want: &str) {
    let (mut text, mut rows) = (String::new(), Vec::new());
    for (kind, part) in chunks {
        let from = text.len() as u32;
        text += part;
        // A span is not looked at.
        rows.extend([*kind, from, text.len() as u32, 9, 7]);
    }
    for room in [want.len(), want.len() + 1, want.len() + 40] {
        let (answer, bytes) = called(text.as_bytes(), &rows, room);
        assert_eq!(answer, Answer::accepted(want.len() as u64), "{chunks:?}");
        let (front, behind) = bytes.split_at(want.len());
        assert_eq!(std::str::from_utf8(front), Ok(want), "{chunks:?}");
        assert!(behind.iter().all(|byte| *byte == UNTOUCHED), "{chunks:?}");
    }
    if !want.is_empty() {
        refused(text.as_bytes(), &rows, &[want.len() - 1, 0], NO_ROOM, 0);
    }
}

/// 2 before 17 before 16: each text, or each sequence of rows, is wrong in all that comes behind too.
#[test]
fn order_of_refusals() {
    let bad = [NORMAL, 0, 2, 0, 0];
    refused(b"ab\xFF", &bad[..4], &[0, 1, 99], NOT_UTF8, 2);
    refused(b"ab\xC3", &[3, 0, 1, 0, 0], &[0, 99], NOT_UTF8, 2);
    refused(TEXT, &bad, &[0, 1, 99], BAD_ROWS, 0);
    refused(TEXT, &bad[..4], &[0, 99], BAD_ROWS, 0);
    for (kind, start, end) in [
        (3, 0, 1),
        (0, 1, 0),
        (1, 0, 5),
        (2, 5, 5),
        (0, 2, 3),
        (0, 0, u32::MAX),
    ] {
        refused(TEXT, &[kind, start, end, 0, 0], &[0, 99], BAD_ROWS, 0);
        // Also behind a row that alone would want more room.
        let rows = [MATH, 0, 4, 0, 0, kind, start, end, 0, 0];
        refused(TEXT, &rows, &[0, 99], BAD_ROWS, 0);
    }
    refused(TEXT, &[NORMAL, 0, 4, 0, 0], &[0, 3], NO_ROOM, 0);
}

/// 16 exactly if the answer needs more: it may need more than the text has, or less.
#[test]
fn exact_room() {
    // Two bytes become six.
    written(&[(NORMAL, "ΐ")], "\u{399}\u{308}\u{301}");
    // The sign of the Kelvin has three bytes, and lowered one; of three line ends one blank is left.
    written(&[(NORMAL, "\u{212A}")], "\u{212A}");
    written(&[(VERBATIM, ""), (NORMAL, "\u{212A}\r\n\n")], "k ");
    written(&[(MATH, "")], "$$");
    written(&[], "");
    written(&[(NORMAL, ""), (VERBATIM, "")], "");
}

/// `first` is over after the first character of the first chunk, and after that chunk, whatever it is.
#[test]
fn raised_once() {
    written(&[(NORMAL, "aB C")], "Ab c");
    written(&[(NORMAL, ""), (NORMAL, "aB")], "ab");
    written(&[(VERBATIM, "aB"), (NORMAL, "Cd")], "aBcd");
    written(&[(VERBATIM, ""), (NORMAL, "Cd")], "cd");
    written(&[(MATH, "aB"), (NORMAL, "Cd")], "$aB$cd");
    written(&[(MATH, ""), (NORMAL, "Cd")], "$$cd");
    written(&[(NORMAL, "1a"), (NORMAL, "bC")], "1abc");
}

/// A line end at the beginning becomes a blank and uses `first` up; behind white space, wherever that came
/// from, it vanishes.
#[test]
fn line_ends() {
    written(&[(NORMAL, "\nAb")], " ab");
    written(&[(NORMAL, "\r\nAb")], " ab");
    written(&[(NORMAL, "a\nB\rC\r\nD")], "A b c d");
    written(&[(NORMAL, "a \nB\t\nC\u{A0}\nD")], "A b\tc\u{A0}d");
    written(&[(NORMAL, "a\u{200B}\nB")], "A\u{200B} b");
    written(&[(NORMAL, "a "), (NORMAL, "\nB")], "A b");
    written(&[(VERBATIM, "A\u{2028}"), (NORMAL, "\nB")], "A\u{2028}b");
    written(&[(VERBATIM, "A\n"), (NORMAL, "\nB")], "A\nb");
    written(&[(NORMAL, "\n"), (NORMAL, "\n"), (NORMAL, "\n")], " ");
}

/// Math leaves what was before it, an empty Normal chunk too; an empty Verbatim one is no white space.
#[test]
fn what_stands_between() {
    written(&[(NORMAL, "a "), (MATH, "X"), (NORMAL, "\nB")], "A $X$b");
    written(&[(NORMAL, "a"), (MATH, "X "), (NORMAL, "\nB")], "A$X $ b");
    written(&[(NORMAL, "a "), (NORMAL, ""), (NORMAL, "\nB")], "A b");
    written(&[(NORMAL, "a "), (VERBATIM, ""), (NORMAL, "\nB")], "A  b");
    written(&[(VERBATIM, "A "), (MATH, ""), (NORMAL, "\nB")], "A $$b");
}

/// Full mappings, the upper one and not the title one, without regard to neighbours.
#[test]
fn mappings() {
    written(&[(NORMAL, "ßß")], "SSß");
    written(&[(NORMAL, "ŉŉ")], "ʼNŉ");
    written(&[(NORMAL, "ΐΐ")], "\u{399}\u{308}\u{301}ΐ");
    written(&[(NORMAL, "ﬃﬃ")], "FFIﬃ");
    written(&[(NORMAL, "ǆǅ")], "Ǆǆ");
    written(&[(NORMAL, "ᾳᾼ")], "ΑΙᾳ");
    written(&[(NORMAL, "iIıİ")], "Iiıi\u{307}");
    written(&[(NORMAL, "ΣΑΣ ΣΑΣ")], "Σασ σασ");
    written(&[(NORMAL, "éÉ漢😀")], "Éé漢😀");
    written(&[(NORMAL, "\u{10428}\u{10400}")], "\u{10400}\u{10428}");
    // What is Verbatim or Math is no text to be lowered.
    written(&[(VERBATIM, "ßİ"), (MATH, "Σ\n")], "ßİ$Σ\n$");
}
