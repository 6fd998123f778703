//! The keys that `bib show` and `bib write` are asked for.

use std::ffi::OsString;

use bib::check;
use bib::Rows;

use crate::near::nearest;
use crate::shown;
use crate::source::Source;

/// The keys that are asked for, in their order, and whether an entry has them.
pub struct Wanted<'a> {
    keys: Vec<(&'a [u8], bool)>,
}

impl<'a> Wanted<'a> {
    pub fn of(keys: &'a [OsString]) -> Self {
        let keys = keys.iter().map(|key| (key.as_encoded_bytes(), false));
        let mut keys: Vec<_> = keys.collect();
        keys.sort_unstable();
        keys.dedup();
        Self { keys }
    }

    /// Whether what has this key is to be shown. Where none is asked for, everything is.
    pub fn takes(&mut self, key: &[u8]) -> bool {
        let found = self.keys.binary_search_by(|(other, _)| (*other).cmp(key));
        if let Ok(place) = found {
            self.keys[place].1 = true;
        }
        self.keys.is_empty() || found.is_ok()
    }

    /// Whether what a finding is about is to be shown, by the key that the finding has.
    pub fn takes_name(&mut self, name: &str) -> bool {
        if self.takes(name.as_bytes()) {
            return true;
        }
        // The key may have bytes that are not UTF-8, or be very long.
        let named = self.keys.iter_mut();
        let named = named.filter(|(key, _)| check::key_name(key) == name);
        let found = named.map(|(_, is_there)| *is_there = true).count();
        found > 0
    }

    /// A sentence for each key that no entry has, with the one that may have been meant.
    pub fn missing(&self, source: &Source, file: &[u8], rows: &Rows) -> Vec<String> {
        let missing = self.keys.iter().filter(|(_, is_there)| !is_there);
        let sentence = |(key, _): &(&[u8], bool)| {
            let known = check::keys(file, rows);
            let known = known.filter_map(|(key, _)| std::str::from_utf8(key).ok());
            let near = nearest(&String::from_utf8_lossy(key), known);
            let near =
                near.map(|near| format!(", did you mean `{}`?", shown::name(near.as_bytes())));
            format!(
                "no entry of {source} has the key `{}`{}",
                shown::name(key),
                near.unwrap_or_default()
            )
        };
        missing.map(sentence).collect()
    }
}
