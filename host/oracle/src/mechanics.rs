//! A stand-in for what resolve.rs takes from the Rust's `mechanics`.

const VERBATIM: [&str; 10] = [
    "doi", "eprint", "file", "pdf", "uri", "url", "urlraw", "verba", "verbb", "verbc",
];

/// Whether a field is read with most commands and escapes off. Only resolving asks, and the caller
/// steers it by the name of the field.
pub fn is_verbatim_field(name: &str) -> bool {
    VERBATIM.contains(&name)
}
