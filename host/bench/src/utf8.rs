//! The UTF-8 check alone: the proved one beside `std::str::from_utf8`.
//!
//! The library exports no check of its own. Strict reading checks the whole file first and then refuses
//! `@@` at its second byte, so the time of a reading that is refused there is the check's.

use std::hint::black_box;

use crate::shapes::Shape;
use crate::timing::Times;

const SIZE: usize = 10_500_000;

pub fn run(real: Option<&Shape>, rounds: usize) {
    if let Some(shape) = real {
        measure(&shape.name, &shape.full, rounds);
    }
    measure("ASCII", &repeated("word and more, "), rounds);
    measure("Greek and Chinese", &repeated("Ωμέγα漢字"), rounds);
    measure("Russian", &repeated("Привет мир и "), rounds);
}

fn repeated(part: &str) -> Vec<u8> {
    part.repeat(SIZE / part.len()).into_bytes()
}

fn measure(name: &str, text: &[u8], rounds: usize) {
    let text = [b"@@", text].concat();
    let answer = proved::read(&text, &mut []);
    assert_eq!(
        (answer.number, answer.start),
        (4, 1),
        "the check is not alone"
    );
    let (mut rust, mut ours) = (Times::new(), Times::new());
    for _ in 0..rounds {
        rust.run(|| std::str::from_utf8(black_box(&text)).is_ok());
        ours.run(|| proved::read(&text, &mut []));
    }
    println!("the UTF-8 check of {name}");
    println!("    from_utf8  {}", rust.speed(text.len()));
    println!(
        "    validate   {}, ratio {}",
        ours.speed(text.len()),
        rust.ratio(&ours)
    );
}
