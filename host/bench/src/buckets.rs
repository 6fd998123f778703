//! Files that attack the index of names: all names have one FNV-1a, so that they fall into one bucket
//! however many buckets are lent. Short names, which are the most that a file can have, and long ones that
//! begin alike, which take the longest to compare. All fields are resolved as in `wholes`, beside the Rust
//! with its map, whose hash has a key.

use std::fs;
use std::path::Path;

use cases::collisions::{Names, DIFFERING};

use crate::wholes;

/// In million bytes, the next of twice the bytes.
const SIZES: [usize; 5] = [1, 2, 4, 8, 16];

/// A long name: of these a file has some twelve thousand.
const LONG: usize = 1300;

/// The names of a file.
struct Kind {
    name: &'static str,
    prefix: usize,
    /// One in so many definitions is used.
    one_in: usize,
}

const KINDS: [Kind; 2] = [
    Kind {
        name: "short",
        prefix: 0,
        one_in: 1,
    },
    Kind {
        name: "long",
        prefix: LONG - DIFFERING,
        one_in: 16,
    },
];

impl Kind {
    /// Its files of at most so many million bytes, each with its size.
    fn files(&self, most: usize) -> impl Iterator<Item = (usize, Vec<u8>)> + '_ {
        let names = Names::new("n".repeat(self.prefix).as_bytes());
        let sizes = SIZES.into_iter().filter(move |size| *size <= most);
        sizes.map(move |size| (size, names.file(size * 1_000_000, self.one_in)))
    }
}

/// Times the files of at most so many million bytes.
pub fn run(most: usize, rounds: usize) {
    for kind in &KINDS {
        let name = format!("{} names of one hash", kind.name);
        let texts = kind.files(most).map(|(_, text)| text);
        wholes::growing(&name, texts, rounds);
    }
}

/// Writes them to a folder, for the command to be tried on.
pub fn write(folder: &Path, most: usize) -> std::io::Result<()> {
    fs::create_dir_all(folder)?;
    for kind in &KINDS {
        for (size, text) in kind.files(most) {
            let file = folder.join(format!("{}-{size}.bib", kind.name));
            fs::write(&file, text)?;
            println!("{}", file.display());
        }
    }
    Ok(())
}
