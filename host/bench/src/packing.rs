//! Packing and unpacking the rows of a file: the proved functions beside the Rust packer.
//!
//! Both write into memory that is there and was written before. MB are of packed bytes.

use std::hint::black_box;

use crate::shapes::Shape;
use crate::timing::{growth, Times};

/// Measured for the rows of one text: the packed bytes, and both ways.
struct Measured {
    bytes: usize,
    pack: Way,
    unpack: Way,
}

/// One way: the Rust packer in one pass, the one that judges all before it writes, and the proved
/// function, which does so too.
struct Way {
    rust: Times,
    judging: Times,
    proved: Times,
}

impl Way {
    fn new() -> Self {
        Self {
            rust: Times::new(),
            judging: Times::new(),
            proved: Times::new(),
        }
    }

    fn print(&self, name: &str, bytes: usize) {
        println!("    {name:6} Rust           {}", self.rust.speed(bytes));
        println!("    {name:6} judging first  {}", self.judging.speed(bytes));
        println!(
            "    {name:6} proved         {}, ratio {}, to judging first {}",
            self.proved.speed(bytes),
            self.rust.ratio(&self.proved),
            self.judging.ratio(&self.proved)
        );
    }
}

pub fn run(shape: &Shape, rounds: usize) {
    println!("packing the rows of {}", shape.name);
    let small = measure(&shape.small, rounds);
    let full = measure(&shape.full, rounds);
    let times = [
        ("Rust packs", &small.pack.rust, &full.pack.rust),
        ("packs", &small.pack.proved, &full.pack.proved),
        ("Rust unpacks", &small.unpack.rust, &full.unpack.rust),
        ("unpacks", &small.unpack.proved, &full.unpack.proved),
    ];
    growth(small.bytes, full.bytes, &times);
}

fn measure(text: &[u8], rounds: usize) -> Measured {
    let rows = rows(text);
    let bytes = agreed_bytes(&rows);
    let (mut rust_bytes, mut rust_rows) = (bytes.clone(), rows.clone());
    let (mut lent_bytes, mut lent_rows) = (bytes.clone(), rows.clone());
    let (mut pack, mut unpack) = (Way::new(), Way::new());
    for _ in 0..rounds {
        // The compiler sees into the Rust packer, and is not to see that nobody reads its output.
        let rust = || packer::pack_into(black_box(&rows), black_box(&mut rust_bytes));
        pack.rust.run(rust);
        let rust = || packer::judge_and_pack_into(black_box(&rows), black_box(&mut rust_bytes));
        pack.judging.run(rust);
        pack.proved.run(|| proved::pack(&rows, &mut lent_bytes));
        let rust = || packer::unpack_into(black_box(&bytes), black_box(&mut rust_rows));
        unpack.rust.run(rust);
        let rust = || packer::judge_and_unpack_into(black_box(&bytes), black_box(&mut rust_rows));
        unpack.judging.run(rust);
        unpack.proved.run(|| proved::unpack(&bytes, &mut lent_rows));
    }
    let bytes = bytes.len();
    println!("  {} rows, {bytes} bytes packed", rows.len() / 4);
    pack.print("pack", bytes);
    unpack.print("unpack", bytes);
    Measured {
        bytes,
        pack,
        unpack,
    }
}

/// The rows that reading gives, as numbers.
fn rows(text: &[u8]) -> Vec<u32> {
    let rows = oracle::read(text).expect("the Rust accepts every shape");
    let numbers = |row: &oracle::Row| [row.kind, row.detail, row.start, row.end];
    rows.iter().flat_map(numbers).collect()
}

/// The packed bytes, on which both agree, as on the way back. A benchmark of a wrong answer says
/// nothing.
fn agreed_bytes(rows: &[u32]) -> Vec<u8> {
    let mut bytes = Vec::new();
    packer::pack_into(rows, &mut bytes).expect("what reading gives packs");
    let (mut packed, mut back) = (vec![1; bytes.len()], vec![1; rows.len()]);
    let answer = proved::pack(rows, &mut packed);
    assert_eq!((answer.number, answer.count), (0, bytes.len() as u64));
    assert!(packed == bytes, "the packers differ");
    let answer = proved::unpack(&bytes, &mut back);
    assert_eq!((answer.number, answer.count), (0, rows.len() as u64 / 4));
    assert!(back == rows, "the rows do not come back");
    bytes
}
