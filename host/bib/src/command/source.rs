//! Where a file comes from.

use std::ffi::OsString;
use std::fmt;
use std::fs::{self, File};
use std::io::{self, Read};
use std::os::fd::AsFd;
use std::os::unix::fs::MetadataExt;
use std::path::{Path, PathBuf};

use crate::shown;
use crate::system::is_stdin_closed;
use crate::Trouble;

/// What standard input is called.
const STDIN: &str = "<stdin>";

/// Standard input, or a named file.
#[derive(Debug, Clone, PartialEq, Eq)]
pub enum Source {
    Stdin,
    Named(PathBuf),
}

impl Source {
    /// `-` is standard input.
    pub fn of(word: OsString) -> Self {
        if word == "-" {
            Self::Stdin
        } else {
            Self::Named(word.into())
        }
    }

    /// Whether both are one and the same file.
    pub fn is_same(&self, other: &Self) -> bool {
        let (Self::Named(one), Self::Named(other)) = (self, other) else {
            return false;
        };
        one == other || self.is_at(other)
    }

    /// Whether a path leads to this file, by whatever links. A terminal or a device is read and written apart.
    pub fn is_at(&self, path: &Path) -> bool {
        let own = match self {
            Self::Stdin => stdin().and_then(|file| file.metadata()),
            Self::Named(own) => fs::metadata(own),
        };
        let both = own.ok().zip(fs::metadata(path).ok());
        both.is_some_and(|(own, other)| {
            own.is_file() && (own.dev(), own.ino()) == (other.dev(), other.ino())
        })
    }

    /// Its name, byte by byte.
    pub fn name(&self) -> &[u8] {
        match self {
            Self::Stdin => STDIN.as_bytes(),
            Self::Named(path) => path.as_os_str().as_encoded_bytes(),
        }
    }

    /// Puts its name as it is shown.
    pub fn put(&self, out: &mut Vec<u8>) {
        let name = self.name();
        if shown::is_plain(name) {
            out.extend_from_slice(name);
        } else {
            out.extend_from_slice(shown::name(name).as_bytes());
        }
    }

    /// What is said where memory is too short for the work on it.
    pub fn beyond_memory(&self, work: &str) -> String {
        format!("cannot {work} {self}: out of memory")
    }

    /// A file's bytes; of one that is too long, one byte more than may be, which shows that it is.
    pub fn file(&self) -> Result<Vec<u8>, Trouble> {
        self.at_most(bib::MOST_BYTES as u64 + 1)
    }

    /// Packed rows. No file has more than a row for each byte and one, so that more bytes than
    /// those take are the rows of no file; the input may have no end.
    pub fn packed(&self) -> Result<Vec<u8>, Trouble> {
        const MOST: u64 = (bib::MOST_BYTES as u64 + 1) * 7;
        let bytes = self.at_most(MOST + 1)?;
        if bytes.len() as u64 > MOST {
            let what = format!("{self} has more bytes than the rows of any file, {MOST}");
            return Err(Trouble::Input(what));
        }
        Ok(bytes)
    }

    fn at_most(&self, most: u64) -> Result<Vec<u8>, Trouble> {
        let file = match self {
            Self::Stdin => stdin(),
            Self::Named(path) => File::open(path),
        };
        let read = file.and_then(|file| drained(file, most));
        read.map_err(|error| Trouble::Input(cannot_read(self, &error)))
    }
}

impl fmt::Display for Source {
    /// Its name as it is shown.
    fn fmt(&self, f: &mut fmt::Formatter<'_>) -> fmt::Result {
        f.write_str(&shown::name(self.name()))
    }
}

/// The sentence about a source that cannot be read.
pub fn cannot_read(source: &Source, error: &io::Error) -> String {
    format!("cannot read {source}: {}", plain(error))
}

/// As a file: `io::stdin` would take one that cannot be read for an empty one.
fn stdin() -> io::Result<File> {
    if is_stdin_closed() {
        return Err(io::Error::other("it is closed"));
    }
    Ok(File::from(io::stdin().as_fd().try_clone_to_owned()?))
}

/// What can be read, but not more than `most`.
fn drained(file: File, most: u64) -> io::Result<Vec<u8>> {
    let known = file.metadata()?.len().min(most);
    let mut bytes = Vec::new();
    // A length that no memory has is a sentence, not an abort.
    bytes.try_reserve_exact(usize::try_from(known).unwrap_or(usize::MAX))?;
    file.take(most).read_to_end(&mut bytes)?;
    Ok(bytes)
}

/// An error of the system, in its words alone.
pub fn plain(error: &io::Error) -> String {
    let text = error.to_string();
    match text.find(" (os error") {
        Some(end) => text[..end].to_lowercase(),
        None => text,
    }
}
