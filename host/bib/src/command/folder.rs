//! The .bib files of folders.

use std::path::{Path, PathBuf};
use std::{fs, io};

use crate::source::{self, Source};

/// The files that are named, with those of the folders that are, and a sentence for each folder
/// that cannot be read or has none.
pub fn expanded(sources: Vec<Source>) -> (Vec<Source>, Vec<String>) {
    let mut files = Vec::new();
    let mut troubles = Vec::new();
    for source in sources {
        match &source {
            Source::Named(path) if path.is_dir() => {
                let before = (files.len(), troubles.len());
                walk(path, &mut files, &mut troubles);
                if before == (files.len(), troubles.len()) {
                    troubles.push(format!("there are no .bib files below {source}"));
                }
            }
            _ => files.push(source),
        }
    }
    (files, troubles)
}

/// All files below a folder whose names end in `.bib`, in small or large letters, in the order of
/// their names. Links to folders are not followed, so that it ends.
fn walk(folder: &Path, files: &mut Vec<Source>, troubles: &mut Vec<String>) {
    let mut found = Vec::new();
    let mut folders = vec![folder.to_path_buf()];
    while let Some(folder) = folders.pop() {
        if let Err(error) = look_into(&folder, &mut folders, &mut found) {
            troubles.push(source::cannot_read(&Source::Named(folder), &error));
        }
    }
    found.sort();
    files.extend(found.into_iter().map(Source::Named));
}

fn look_into(
    folder: &Path,
    folders: &mut Vec<PathBuf>,
    files: &mut Vec<PathBuf>,
) -> io::Result<()> {
    for entry in fs::read_dir(folder)? {
        let entry = entry?;
        if entry.file_type()?.is_dir() {
            folders.push(entry.path());
        } else if is_bib(&entry.path()) && entry.path().is_file() {
            files.push(entry.path());
        }
    }
    Ok(())
}

fn is_bib(path: &Path) -> bool {
    path.extension()
        .is_some_and(|end| end.eq_ignore_ascii_case("bib"))
}
