//! The files of examples/: what is said of each is kept beside it, and what is shown of some.

use std::path::Path;
use std::{fs, io, process};

use crate::run::{knows, Run, BIB};

/// What a work prints of an example, and ends with.
fn run(root: &Path, work: &[&str], name: &str) -> Run {
    let file = format!("examples/{name}.bib");
    let output = process::Command::new(BIB)
        .args(work)
        .arg(&file)
        .current_dir(root)
        .output();
    Run::of(output.expect("the command starts"))
}

/// What is kept of it, in the file with this ending.
fn kept(root: &Path, name: &str, end: &str) -> io::Result<String> {
    fs::read_to_string(root.join(format!("examples/{name}.{end}")))
}

/// Examples that are shown as they would read by the C library, which may lack their encodings.
const ENCODINGS: [(&str, &str); 2] = [("gb18030", "GB18030"), ("shift-jis", "CP932")];

#[test]
fn broken_files() {
    let root = Path::new(env!("CARGO_MANIFEST_DIR")).join("../..");
    let folder = fs::read_dir(root.join("examples")).expect("examples/ is there");
    let names = folder.map(|entry| entry.expect("it can be listed").file_name());
    let names: Vec<String> = names.filter_map(|name| name.into_string().ok()).collect();
    let files: Vec<&str> = names
        .iter()
        .filter_map(|name| name.strip_suffix(".bib"))
        .collect();
    assert!(files.len() >= 48, "{} examples are too few", files.len());
    for name in files {
        let encoding = ENCODINGS.iter().find(|(file, _)| *file == name);
        if encoding.is_some_and(|(_, encoding)| !knows(encoding)) {
            continue;
        }
        let said = kept(&root, name, "out").expect("it is kept");
        let status = i32::from(said.contains(": error: "));
        run(&root, &["check"], name).is(status, &said);
        let is_shown = shown(&root, name);
        let is_written = written(&root, name);
        assert!(
            is_shown || is_written || said.lines().count() > 1,
            "nothing is said of {name}"
        );
    }
}

/// Shows an example as is kept beside it; whether anything is.
fn shown(root: &Path, name: &str) -> bool {
    let works: [(&str, &[&str]); 2] = [("show", &["show"]), ("sentence", &["show", "--sentence"])];
    let kept = works.into_iter().filter(|(end, work)| {
        let kept = kept(root, name, end);
        kept.is_ok_and(|kept| {
            run(root, work, name).is(0, &kept);
            true
        })
    });
    kept.count() > 0
}

/// Writes an example as is kept beside it; whether anything is.
fn written(root: &Path, name: &str) -> bool {
    let Ok(kept) = kept(root, name, "write") else {
        return false;
    };
    let run = run(root, &["write"], name);
    assert_eq!((run.status, run.text()), (Some(0), kept.as_str()));
    assert!(
        run.err.ends_with(" written, 0 changed, 0 left out\n"),
        "{}",
        run.err
    );
    true
}
