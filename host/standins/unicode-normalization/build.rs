//! Finds the crate `unicode-normalization` and has the modules of it that compose compiled where
//! they stand, unchanged; or else makes a table of ICU's answers.
//!
//! The crate is release 0.1.22 of Debian's package librust-unicode-normalization-dev, which is
//! looked for where that package puts it, or in the folder that KNURRAVOE_CRATES names (a relative
//! one is taken from host/). Where there is none, the table is made of the answers that
//! crates/compose_cases must print, which came from ICU.

use std::fmt::Write;
use std::path::{Path, PathBuf};
use std::{env, fs};

const RELEASE: &str = "unicode-normalization-0.1.22";

/// The modules that composing needs. Of another, `quick_check`, one of them needs an enum.
const MODULES: [&str; 4] = ["lookups", "normalize", "perfect_hash", "tables"];

/// Letters that compose since Unicode 16.0; the release has 15.0.
const LATER: &str = "&['\\u{105D2}', '\\u{105DA}']";

fn main() {
    println!("cargo:rerun-if-env-changed=KNURRAVOE_CRATES");
    let here = env::var_os("CARGO_MANIFEST_DIR").expect("cargo sets CARGO_MANIFEST_DIR");
    let host = Path::new(&here)
        .ancestors()
        .nth(2)
        .expect("this crate stands in host/standins/");
    let folder = env::var_os("KNURRAVOE_CRATES").unwrap_or("/usr/share/cargo/registry".into());
    let release = host.join(folder).join(RELEASE);
    println!("cargo:rerun-if-changed={}", release.display());
    let code = if release.is_dir() {
        of_release(&release)
    } else {
        of_answers(&host.join("../crates/compose_cases/stdout"))
    };
    let out = env::var_os("OUT_DIR").expect("cargo sets OUT_DIR for a build script");
    fs::write(PathBuf::from(out).join("compose.rs"), code)
        .expect("the code cannot be written to OUT_DIR");
}

fn of_release(release: &Path) -> String {
    let mut code = String::new();
    for module in MODULES {
        let file = release.join(format!("src/{module}.rs"));
        println!("cargo:rerun-if-changed={}", file.display());
        let path = file.display().to_string();
        code += &format!("#[allow(dead_code, missing_docs, ellipsis_inclusive_range_patterns)]\n#[path = {path:?}]\nmod {module};\n");
    }
    code += "#[allow(dead_code)]\nmod quick_check {\n    pub enum IsNormalized {\n        Yes,\n        No,\n        Maybe,\n    }\n}\n";
    code += "use normalize::compose;\n";
    code + &said("unicode-normalization 0.1.22, Unicode 15.0", LATER)
}

/// A line is a letter, a mark and what they compose to, in hexadecimal digits; the last line counts.
fn of_answers(answers: &Path) -> String {
    println!("cargo:rerun-if-changed={}", answers.display());
    let lines = fs::read_to_string(answers).expect("crates/compose_cases has a file stdout");
    let mut code = String::from(
        "fn compose(letter: char, mark: char) -> Option<char> {\n    match (letter, mark) {\n",
    );
    for line in lines.lines().filter(|line| !line.ends_with("compose")) {
        let words: Vec<&str> = line.split(' ').collect();
        let [letter, mark, composed] = words[..] else {
            panic!("no line of three characters: {}", line)
        };
        writeln!(
            code,
            "        ('\\u{{{letter}}}', '\\u{{{mark}}}') => Some('\\u{{{composed}}}'),"
        )
        .expect("a string takes any line");
    }
    code += "        _ => None,\n    }\n}\n";
    code + &said("a table of ICU's answers, Unicode 17.0", "&[]")
}

fn said(source: &str, later: &str) -> String {
    format!(
        "/// Where composition comes from.\npub const SOURCE: &str = {source:?};\n\n\
         /// Letters that compose with a mark in Unicode 17.0, but not here.\n\
         pub const LATER: &[char] = {later};\n"
    )
}
