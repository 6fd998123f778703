//! Real files.

use std::path::{Path, PathBuf};
use std::{fs, io};

/// The files that are named, and of each folder those below it that end in .bib, in the order of
/// their names. What cannot be read is said and left out.
pub fn files(paths: &[PathBuf]) -> Vec<Vec<u8>> {
    let mut found = Vec::new();
    for path in paths {
        if let Err(fault) = collect(path, &mut found) {
            eprintln!("{} cannot be read: {fault}", path.display());
        }
    }
    found.sort();
    found.iter().filter_map(|file| text(file)).collect()
}

fn text(file: &Path) -> Option<Vec<u8>> {
    fs::read(file)
        .map_err(|fault| eprintln!("{} cannot be read: {fault}", file.display()))
        .ok()
}

/// Folders are not followed through links, which may lead around.
fn collect(path: &Path, found: &mut Vec<PathBuf>) -> io::Result<()> {
    if !path.is_dir() {
        found.push(path.to_path_buf());
        return Ok(());
    }
    for entry in fs::read_dir(path)? {
        let entry = entry?;
        let path = entry.path();
        if entry.file_type()?.is_dir() {
            collect(&path, found)?;
        } else if path.is_file() && path.extension().is_some_and(|end| end == "bib") {
            found.push(path);
        }
    }
    Ok(())
}
