//! What a misspelt word may have meant.

use bib::check::distance;

/// The word of these that is nearest to the one given, if one is near.
pub fn nearest<'a>(word: &str, known: impl IntoIterator<Item = &'a str>) -> Option<&'a str> {
    let most = if word.len() < 5 { 1 } else { 2 };
    let letters: Vec<char> = word.chars().collect();
    let length = letters.len();
    // There may be a million words, and most differ too much in length.
    let known = known.into_iter();
    let known = known.filter(|one| one.chars().count().abs_diff(length) <= most);
    let apart = |one: &str| distance(&letters, &one.chars().collect::<Vec<_>>());
    let near = known.map(|one| (apart(one), one));
    let (distance, one) = near.min()?;
    (distance <= most).then_some(one)
}

#[cfg(test)]
mod tests {
    use super::*;

    #[test]
    fn misspelt_words() {
        let known = ["check", "rows", "salvage", "pack", "unpack"];
        assert_eq!(nearest("chekc", known), Some("check"));
        assert_eq!(nearest("row", known), Some("rows"));
        assert_eq!(nearest("salvge", known), Some("salvage"));
        assert_eq!(nearest("read", known), None);
        assert_eq!(nearest("--long", known), None);
    }
}
