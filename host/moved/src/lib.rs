//! One program, `program.rs`, that is written against the names of typst/biblatex's modules: compiled
//! over the original, and over the proved library by another `use` line.

/// Over the original.
pub mod original {
    use oracle as biblatex;

    include!("program.rs");
}

/// Over the proved library.
pub mod ours {
    use biblatex_shapes as biblatex;

    include!("program.rs");
}

/// The month words that both know; the original is lent them, since its own list cannot be had.
pub use biblatex_shapes::resolve::MONTHS;

/// Calls with the original lent them.
pub fn with_months<T>(call: impl FnOnce() -> T) -> T {
    oracle::types::lending_months(&MONTHS, call)
}

/// What the program says of a source over the original, and over the proved library. Of a source that
/// has something that only the proved library refuses nothing is said: the original may not end.
pub fn both(source: &str) -> Option<[Result<String, String>; 2]> {
    const ADDED: [&str; 4] = [
        "CyclicAbbreviation(",
        "TooLong,",
        "TooDeep,",
        "TooManyNames,",
    ];
    let ours = ours::listed(source);
    let (Ok(said) | Err(said)) = &ours;
    if ADDED.iter().any(|added| said.contains(added)) {
        return None;
    }
    Some([with_months(|| original::listed(source)), ours])
}
