//! Programs that are linked with the library look for it by its name alone.

fn main() {
    println!("cargo:rerun-if-changed=build.rs");
    println!("cargo:rustc-cdylib-link-arg=-Wl,-soname,libbibcheck.so");
}
