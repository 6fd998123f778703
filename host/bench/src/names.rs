//! A program that is written against the names of the Rust's modules: over the original, and over the
//! proved library by its `use` line. It reads a file, makes the map of definitions, and resolves and
//! formats each field.

use std::path::PathBuf;

use crate::shapes;
use crate::timing::{growth, Times};

pub fn run(folders: &[PathBuf], rounds: usize) {
    let Some(shape) = shapes::real(folders) else {
        println!("no real file: name a folder that has .bib files");
        return;
    };
    println!("a program over the Rust's names, on {}", shape.name);
    let sizes = [&shape.small, &shape.full];
    let times = sizes.map(|text| measure(text, rounds));
    let [small, full] = &times;
    let both = [("original", &small.0, &full.0), ("ours", &small.1, &full.1)];
    growth(sizes[0].len(), sizes[1].len(), &both);
}

/// The original's times, and ours.
fn measure(text: &[u8], rounds: usize) -> (Times, Times) {
    let source = std::str::from_utf8(text).expect("every shape is UTF-8");
    let (mut original, mut ours) = (Times::new(), Times::new());
    moved::with_months(|| {
        let both = (
            moved::original::formatted(source),
            moved::ours::formatted(source),
        );
        let (Ok(one), Ok(other)) = both else {
            panic!("every shape is accepted");
        };
        assert_eq!(one, other, "the programs differ");
        for _ in 0..rounds {
            original.run(|| moved::original::formatted(source));
            ours.run(|| moved::ours::formatted(source));
        }
    });
    println!("  {} bytes", text.len());
    println!("    original {}", original.speed(text.len()));
    let ratio = original.ratio(&ours);
    println!("    ours     {}, ratio {ratio}", ours.speed(text.len()));
    (original, ours)
}
