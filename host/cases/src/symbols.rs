//! Characters, heads and sequences from which cases are put together.

/// The characters that decide something in the grammar, one of each class.
pub const ALPHABET: [&[u8]; 14] = [
    b"@", b"a", b"{", b"}", b"\"", b",", b"=", b"#", b"%", b"\\", b"\n", b"1", b".", b" ",
];

/// The same, with characters of more bytes, controls and what only identifiers tell apart: a
/// hyphen, which goes on but does not start, NUL, a letter of two bytes, white space of two and
/// three, and a character of four.
pub const WIDER: [&[u8]; 19] = [
    b"@",
    b"k",
    b"{",
    b"}",
    b"\"",
    b",",
    b"=",
    b"#",
    b"%",
    b"\\",
    b"\n",
    b"7",
    b".",
    b"-",
    b"\0",
    b"\xC3\xA9",
    b"\xC2\x85",
    b"\xE3\x80\x80",
    b"\xF0\x9F\x98\x80",
];

/// What matters to salvage, in strings of which most have several pieces: a boundary and its
/// parts, what only looks like one, items and their fronts, what closes them, and bytes that are
/// UTF-8 together but not alone.
pub const PIECES: [&[u8]; 14] = [
    b"@",
    b"\n",
    b"\n@",
    b"\r",
    b"a",
    b"@a{k,}",
    b"@a{k,t={",
    b"@comment{",
    b"}",
    b"\"",
    b"%",
    b"\n@string{s=1}",
    b"\xC3",
    b"\xA9",
];

/// What tails are put behind: the middle of every reader of the grammar.
pub const HEADS: [&[u8]; 18] = [
    b"@",
    b"@a",
    b"@a{",
    b"@a{k,",
    b"@a{k,%c\n",
    b"@a{k,t",
    b"@a{k,t=",
    b"@a{k,t={x",
    b"@a{k,t=\"x",
    b"@a{k,t=1",
    b"@a{k,t=x",
    b"@a{k,t={x},",
    b"@a{k,t={x}#",
    b"@string{",
    b"@String{a=1,b=",
    b"@preamble{",
    b"@preamble{\"x\"} @preAMBLE{\"",
    b"@comment{",
];

/// Where a character is put to see its class: where a type or its end, a key or its end, white
/// space or a name, and a value is looked for.
pub const AROUND: [(&str, &str); 5] = [
    ("@", "{k,}"),
    ("@a", "{k,}"),
    ("@a{k", ",}"),
    ("@a{k,", "}"),
    ("@a{k,t=", "}"),
];

/// Sequences around what RFC 3629 allows: the first and last that it does, then cut short,
/// overlong, surrogates, past the last character.
pub const SEQUENCES: [&[u8]; 28] = [
    b"\x7F",
    b"\xC2\x80",
    b"\xDF\xBF",
    b"\xE0\xA0\x80",
    b"\xED\x9F\xBF",
    b"\xEE\x80\x80",
    b"\xEF\xBF\xBF",
    b"\xF0\x90\x80\x80",
    b"\xF4\x8F\xBF\xBF",
    b"\xE2\x80\xA8",
    b"\xC2\xA0",
    b"\x80",
    b"\xBF",
    b"\xC0\x80",
    b"\xC1\xBF",
    b"\xC3",
    b"\xE0\x80\x80",
    b"\xE0\x9F\xBF",
    b"\xE2\x82",
    b"\xED\xA0\x80",
    b"\xED\xBF\xBF",
    b"\xF0\x80\x80\x80",
    b"\xF0\x8F\xBF\xBF",
    b"\xF0\x9F\x98",
    b"\xF4\x90\x80\x80",
    b"\xF5\x80\x80\x80",
    b"\xF8\x88\x80\x80\x80",
    b"\xFE",
];

/// Files that hold one part any number of times, between two others: every part that can be long
/// or frequent.
pub const PARTS: [(&[u8], &[u8], &[u8]); 22] = [
    (b"", b" ", b""),
    (b"", b"x", b"@a{k,}"),
    (b"%", b"@", b"\n@a{k,}"),
    (b"@", b"a", b"{k,}"),
    (b"@a{", b"k", b",}"),
    (b"@a{", b"\xC3\xA9", b",}"),
    (b"@a", b" ", b"{k,}"),
    (b"@a{k,", b"\xE3\x80\x80", b"}"),
    (b"@a{k,%", b"c", b"\n}"),
    (b"@a{k,", b"t", b"=1}"),
    (b"@a{k,t=", b"1", b"}"),
    (b"@a{k,t=1.", b"2", b",}"),
    (b"@a{k,t=", b"n", b"}"),
    (b"@a{k,t={", b"x", b"}}"),
    (b"@a{k,t={", b"\\}", b"}}"),
    (b"@a{k,t=\"", b"\xF0\x9F\x98\x80", b"\"}"),
    (b"@a{k,t=\"", b"\\\"", b"\""),
    (b"@a{k,t=x", b"#x", b" , }"),
    (b"@a{k,", b"t={},", b"}"),
    (b"", b"@a{k,}", b"@"),
    (b"@string{", b"a=b,", b"}"),
    (b"", b"@preamble{\"\"}", b"@preamble{x"),
];
