//! The crate `unicode-normalization` where it is installed, or a stand-in for it: build.rs says how
//! either comes here. The release that the Rust would be built with cannot be had.

include!(concat!(env!("OUT_DIR"), "/compose.rs"));

/// Functions on characters.
pub mod char {
    /// The character that a letter and a mark compose to.
    pub fn compose(letter: char, mark: char) -> Option<char> {
        crate::compose(letter, mark)
    }
}
