//! How far two words are apart.

/// How many letters are to be put in, taken out, changed or exchanged with the next one.
pub fn distance<T: PartialEq>(a: &[T], b: &[T]) -> usize {
    // What each beginning of `b` is apart from the beginnings of `a` that were gone over last.
    let mut before = vec![0; b.len() + 1];
    let mut last: Vec<usize> = (0..=b.len()).collect();
    let mut next = vec![0; b.len() + 1];
    for i in 1..=a.len() {
        next[0] = i;
        for j in 1..=b.len() {
            let changed = last[j - 1] + usize::from(a[i - 1] != b[j - 1]);
            next[j] = changed.min(last[j] + 1).min(next[j - 1] + 1);
            if i > 1 && j > 1 && a[i - 1] == b[j - 2] && a[i - 2] == b[j - 1] {
                next[j] = next[j].min(before[j - 2] + 1);
            }
        }
        std::mem::swap(&mut before, &mut last);
        std::mem::swap(&mut last, &mut next);
    }
    last[b.len()]
}

#[cfg(test)]
mod tests {
    use super::*;

    #[test]
    fn distances() {
        let of = |a: &str, b: &str| distance(a.as_bytes(), b.as_bytes());
        for (a, b, want) in [
            ("", "", 0),
            ("", "abc", 3),
            ("author", "author", 0),
            ("auhtor", "author", 1),
            ("auther", "author", 1),
            ("auhor", "author", 1),
            ("authoor", "author", 1),
            ("jounral", "journal", 1),
            ("kitten", "sitting", 3),
            ("abcd", "badc", 2),
        ] {
            assert_eq!((of(a, b), of(b, a)), (want, want), "{a} {b}");
        }
    }
}
