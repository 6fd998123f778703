//! Finds the proved reader, libbib.a, and has it linked.
//!
//! KNURRAVOE_LIB names its folder; a relative one is taken from host/. Where it is not set, it is
//! lib/MACHINE of the repository, which `host/library` makes.

use std::path::{Path, PathBuf};
use std::{env, fs, process};

fn main() {
    println!("cargo:rerun-if-env-changed=KNURRAVOE_LIB");
    let folder = folder();
    let library = folder.join("libbib.a");
    println!("cargo:rerun-if-changed={}", library.display());
    if !library.is_file() {
        missing(&library);
    }
    let made_of = folder.join("../made-of.txt");
    println!("cargo:rerun-if-changed={}", made_of.display());
    let told = fs::read_to_string(made_of).unwrap_or_default();
    println!("cargo:rustc-env=BIB_KIT={}", line(&told, "kit "));
    println!("cargo:rustc-env=BIB_SOURCES={}", line(&told, "sources "));
    println!("cargo:rustc-link-search=native={}", folder.display());
    // Not bundled: the archive goes to the linker as it is, and LTO does not look into it.
    println!("cargo:rustc-link-lib=static:-bundle=bib");
}

fn folder() -> PathBuf {
    let here = env::var_os("CARGO_MANIFEST_DIR").expect("cargo sets CARGO_MANIFEST_DIR");
    let host = Path::new(&here)
        .parent()
        .expect("this crate stands in host/");
    let machine = env::var("CARGO_CFG_TARGET_ARCH").expect("cargo sets the target's machine");
    let made = format!("../lib/{machine}");
    host.join(env::var_os("KNURRAVOE_LIB").unwrap_or_else(|| made.into()))
}

/// What the line that begins with this word says; nothing where there is none.
fn line<'a>(told: &'a str, word: &str) -> &'a str {
    told.lines()
        .find_map(|line| line.strip_prefix(word))
        .unwrap_or_default()
}

fn missing(library: &Path) -> ! {
    eprintln!(
        "The proved reader is not there: no file {}. lib/ of the repository has it for x86-64 and \
         for Arm; `host/library` makes it anew. Or set KNURRAVOE_LIB to the folder that has \
         libbib.a.",
        library.display()
    );
    process::exit(1)
}
