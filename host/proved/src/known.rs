//! What the Rust knows outside the three modules: which fields are verbatim, and what the months are
//! called. Nothing here needs the library.

/// The fields whose text is taken as it stands, in small letters.
pub const VERBATIM: [&str; 10] = [
    "file", "doi", "uri", "eprint", "verba", "verbb", "verbc", "pdf", "url", "urlraw",
];

/// The English months: each word with its text.
pub const MONTHS: [(&str, &str); 12] = [
    ("jan", "January"),
    ("feb", "February"),
    ("mar", "March"),
    ("apr", "April"),
    ("may", "May"),
    ("jun", "June"),
    ("jul", "July"),
    ("aug", "August"),
    ("sep", "September"),
    ("oct", "October"),
    ("nov", "November"),
    ("dec", "December"),
];
