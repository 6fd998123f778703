//! Finds the Rust and writes the lines that take its three modules in, unchanged, where they stand.
//!
//! KNURRAVOE_RUST names the folder that has raw.rs, resolve.rs and chunk.rs. Where it is not set,
//! it is docs/src/src of the folder `shared` that stands beside the repository. A relative folder
//! is taken from host/.

use std::path::{Path, PathBuf};
use std::{env, fs, process};

const MODULES: [&str; 3] = ["chunk", "raw", "resolve"];

fn main() {
    println!("cargo:rerun-if-env-changed=KNURRAVOE_RUST");
    let folder = folder();
    let mut wrapper = String::new();
    for module in MODULES {
        let file = folder.join(format!("{module}.rs"));
        println!("cargo:rerun-if-changed={}", file.display());
        if !file.is_file() {
            missing(&file);
        }
        // Parts of chunk.rs serve modules that are not taken in.
        wrapper += "#[allow(dead_code)]\n";
        wrapper += &format!(
            "#[path = {:?}]\npub mod {module};\n",
            file.display().to_string()
        );
    }
    let out = env::var_os("OUT_DIR").expect("cargo sets OUT_DIR for a build script");
    fs::write(Path::new(&out).join("rust.rs"), wrapper)
        .expect("the wrapper of the Rust's modules cannot be written to OUT_DIR");
}

fn folder() -> PathBuf {
    let here = env::var_os("CARGO_MANIFEST_DIR").expect("cargo sets CARGO_MANIFEST_DIR");
    let host = Path::new(&here)
        .parent()
        .expect("the oracle stands in host/");
    let given = env::var_os("KNURRAVOE_RUST").unwrap_or_else(|| "../../shared/docs/src/src".into());
    host.join(given)
}

fn missing(file: &Path) -> ! {
    eprintln!(
        "The Rust that judges is not there: no file {}. Set KNURRAVOE_RUST to the folder that has \
         raw.rs, resolve.rs and chunk.rs of typst/biblatex.",
        file.display()
    );
    process::exit(1)
}
