//! The files that are read: a real one, and the worst for a reader that looks at a byte twice.

use std::path::PathBuf;

/// The larger file of a shape, in bytes, and how many times the smaller one it is.
const FULL: usize = 10_500_000;
const TIMES: usize = 4;
const MILLION: usize = 1_000_000;

/// A typical file, in bytes.
const TYPICAL: usize = 15_000;

/// Longer real files are left out, so that the whole stays as short as a file must be.
const LONGEST_PART: usize = 6_000_000;

/// A kind of file, at two sizes.
pub struct Shape {
    pub name: String,
    pub small: Vec<u8>,
    pub full: Vec<u8>,
}

pub fn all(folders: &[PathBuf]) -> Vec<Shape> {
    let mut shapes = Vec::new();
    match real(folders) {
        Some(shape) => shapes.push(shape),
        None => println!("no real file: name a folder that has .bib files"),
    }
    shapes.push(made("one field", |size| {
        around(b"@a{k,t={", b"word ", b"}}", size)
    }));
    shapes.push(made("one quoted field with escapes", |size| {
        around(b"@a{k,t=\"", b"\\\"x", b"\"}", size)
    }));
    shapes.push(made("one field, not ASCII", |size| {
        around(b"@a{k,t={", "Ωμέγα漢字".as_bytes(), b"}}", size)
    }));
    shapes.push(million());
    shapes.push(made("one entry of many fields", |size| {
        around(b"@a{k,\n", b" year = 1999,\n", b"}", size)
    }));
    shapes.push(made("one value of many names", |size| {
        around(b"@a{k,t=n", b"#n", b"}", size)
    }));
    shapes.push(made("deep braces", deep));
    shapes.push(made("white space", |size| around(b"", b" \n", b"", size)));
    shapes.push(made("a comment", |size| {
        around(b"%", b"@a{k,} ", b"", size)
    }));
    shapes
}

fn made(name: &str, text: impl Fn(usize) -> Vec<u8>) -> Shape {
    Shape {
        name: name.into(),
        small: text(FULL / TIMES),
        full: text(FULL),
    }
}

/// A part repeated between two others.
fn around(before: &[u8], part: &[u8], after: &[u8], size: usize) -> Vec<u8> {
    let mut text = before.to_vec();
    while text.len() < size {
        text.extend_from_slice(part);
    }
    text.extend_from_slice(after);
    text
}

fn deep(size: usize) -> Vec<u8> {
    let mut text = b"@a{k,t={".to_vec();
    text.resize(text.len() + size / 2, b'{');
    text.resize(text.len() + size / 2, b'}');
    text.extend_from_slice(b"}}");
    text
}

/// A million tiny entries, and two: more would be longer than a file may be.
pub fn million() -> Shape {
    let entries = |count: usize| b"@a{k,}\n".repeat(count);
    Shape {
        name: "a million tiny entries, and two".into(),
        small: entries(MILLION),
        full: entries(2 * MILLION),
    }
}

/// A quarter of a million definitions and as many uses of them, and a million: every name once, in
/// another order than they are defined in.
pub fn definitions() -> Shape {
    Shape {
        name: "a quarter of a million definitions and as many uses, and a million".into(),
        small: defined_and_used(MILLION / 4),
        full: defined_and_used(MILLION),
    }
}

fn defined_and_used(count: usize) -> Vec<u8> {
    // It has no factor in common with a count whose factors are 2 and 5.
    const STEP: usize = 619_033;
    // Four letters and digits, of which the first is a letter.
    let name = |number: usize| {
        let digit = |place: usize| b"0123456789abcdefghijklmnopqrstuvwxyz"[number / place % 36];
        let first = b'a' + (number / (36 * 36 * 36)) as u8;
        [first, digit(36 * 36), digit(36), digit(1)]
    };
    let mut text = b"@string{".to_vec();
    for number in 0..count {
        text.extend(name(number));
        text.extend(b"=1,");
    }
    text.extend(b"}\n@a{k,");
    for number in 0..count {
        text.extend(b"t=");
        text.extend(name(number * STEP % count));
        text.push(b',');
    }
    text.push(b'}');
    text
}

/// Files of many refused pieces, and of one piece that no boundary cuts: a million and four, which
/// is as many as a file has of the longest.
pub fn pieces() -> [Shape; 4] {
    let shape = |name: &str, piece: &[u8]| Shape {
        name: name.into(),
        small: piece.repeat(MILLION),
        full: piece.repeat(TIMES * MILLION),
    };
    [
        shape("a million two-byte pieces, and four", b"@\n"),
        shape("a million pieces that are left open, and four", b"@a{\n"),
        shape("a million pieces that are not UTF-8, and four", b"@\xFF\n"),
        shape("one piece of a million lines, and of four", b"a\n"),
    ]
}

/// Files that are refused at their end: over a character of one, three or four bytes where a comma is looked
/// for, and over nothing, where a value is not closed.
pub fn refused(folders: &[PathBuf]) -> Vec<Shape> {
    let mut shapes = Vec::new();
    if let Some(real) = real(folders) {
        shapes.push(ended(real, b"@a{k}", "and one without a comma"));
    }
    let wide = "@a{k 漢,}\n".as_bytes();
    shapes.push(ended(
        million(),
        wide,
        "and one with three bytes for a comma",
    ));
    shapes.push(made("one field that is left open", |size| {
        around(b"@a{k,t={", b"word ", b"", size)
    }));
    shapes.push(made("many fields, with four bytes for a comma", |size| {
        around(b"@a{k,\n", b" year = 1999,\n", "t = 1 😀}".as_bytes(), size)
    }));
    shapes
}

/// A shape with this at the end of its texts.
fn ended(shape: Shape, end: &[u8], said: &str) -> Shape {
    Shape {
        name: format!("{}, {said}", shape.name),
        small: [&shape.small, end].concat(),
        full: [&shape.full, end].concat(),
    }
}

/// Files whose pieces are all refused: tiny ones over a character of one, three or four bytes, and entries as
/// authors have them in which a value is missing.
pub fn damaged_pieces() -> [Shape; 4] {
    let shape = |name: &str, piece: &str| {
        let text = |size| around(b"", piece.as_bytes(), b"", size);
        made(name, text)
    };
    [
        shape("tiny entries without a comma", "@a{k}\n"),
        shape("tiny ones with three bytes for a comma", "@a{k 漢,}\n"),
        shape("tiny ones with four bytes for a comma", "@a{k 😀,}\n"),
        shape(
            "entries without a year",
            "@book{key,\n  author = {Someone Else},\n  title = {A Title},\n  year = ,\n}\n",
        ),
    ]
}

/// The files that strict reading accepts.
pub fn real(folders: &[PathBuf]) -> Option<Shape> {
    joined("accepted", folders, |file| oracle::read(file).is_ok())
}

/// The same in files of some 15 KB, each from an item that begins a line to another.
pub fn typical(folders: &[PathBuf]) -> Vec<Vec<u8>> {
    let text = real(folders).map_or(Vec::new(), |shape| shape.full);
    let (mut files, mut from) = (Vec::new(), 0);
    let item = |at: &usize| text[at - 1..].starts_with(b"\n@");
    for at in (1..text.len()).filter(item) {
        if at - from >= TYPICAL && oracle::read(&text[from..at]).is_ok() {
            files.push(text[from..at].to_vec());
            from = at;
        }
    }
    files
}

/// The same at 1, 2, 4, 8 and as nearly 16 MB as a file may be, whole files each.
pub fn doubling(folders: &[PathBuf]) -> Vec<Vec<u8>> {
    let Some(shape) = real(folders) else {
        return Vec::new();
    };
    let sizes = [1, 2, 4, 8, 16].map(|size| size * MILLION);
    sizes.map(|size| cut(&shape, size)).into()
}

/// The shape's text, over and over, up to so many bytes and to the next item that begins a line.
fn cut(shape: &Shape, size: usize) -> Vec<u8> {
    let mut text = shape.full.repeat(size / shape.full.len() + 1);
    let item = |at: &usize| text[at - 1..].starts_with(b"\n@");
    let mut places = (1..=size).rev().filter(item);
    let place = places.find(|place| oracle::read(&text[..*place]).is_ok());
    text.truncate(place.expect("an item begins where strict reading accepts what is before"));
    text
}

/// The files that strict reading accepts and in which salvage sees no damage: it gives their rows.
pub fn sound(folders: &[PathBuf]) -> Option<Shape> {
    joined("sound", folders, |file| {
        oracle::read(file).is_ok_and(|rows| oracle::salvage(file) == Ok(rows))
    })
}

/// The same files with every tenth entry damaged: it has no comma behind its key. As many bytes as
/// before, and as many pieces.
pub fn every_tenth_damaged(sound: &Shape) -> Shape {
    Shape {
        name: format!("{}, every tenth piece damaged", sound.name),
        small: damaged(&sound.small),
        full: damaged(&sound.full),
    }
}

fn damaged(text: &[u8]) -> Vec<u8> {
    let mut text = text.to_vec();
    let heads: Vec<usize> = (1..text.len())
        .filter(|&at| text[at] == b'@' && text[at - 1] == b'\n')
        .collect();
    for head in heads.into_iter().skip(9).step_by(10) {
        if let Some(comma) = text[head..].iter().position(|byte| *byte == b',') {
            text[head + comma] = b' ';
        }
    }
    text
}

/// The files that are wanted, one after the other, from the start again until the text is long
/// enough. An accepted file ends between two items or in a comment, which a newline ends.
fn joined(wanted: &str, folders: &[PathBuf], want: impl Fn(&[u8]) -> bool) -> Option<Shape> {
    let mut files = cases::files(folders);
    let found = files.len();
    files.retain(|file| file.len() < LONGEST_PART && want(file));
    let bytes: usize = files.iter().map(Vec::len).sum();
    if bytes == 0 {
        return None;
    }
    let text = |size| {
        let mut text = Vec::new();
        for file in files.iter().cycle() {
            if text.len() >= size {
                break;
            }
            text.extend_from_slice(file);
            text.push(b'\n');
        }
        text
    };
    Some(Shape {
        name: format!(
            "real: {} {wanted} of {found} files, {bytes} bytes",
            files.len()
        ),
        small: text(FULL / TIMES),
        full: text(FULL),
    })
}
