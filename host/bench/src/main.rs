//! From bytes to rows, the UTF-8 check included: the proved reader beside the Rust.
//!
//!     cargo run --release -p bench -- FOLDER              with the real .bib files below FOLDER
//!     cargo run --release -p bench -- --rounds 21 FOLDER  more rounds than 11
//!     cargo run --release -p bench                        the made shapes only
//!     cargo run --release -p bench -- --processor FOLDER  the processor's time, where there is other work
//!     cargo run --release -p bench -- --only literals FOLDER    of reading, utf8, packing, salvage,
//!                                                         refused, literals, sentences, names, wholes and
//!                                                         buckets just this
//!     cargo run --release -p bench -- --empty-places FOLDER    a library of before 02's "Underline the culprit",
//!                                                         whose refusals have empty places
//!     cargo run --release -p bench -- --only buckets --most 16    files of up to 16 MB whose names have one
//!                                                         hash, and not of 1 MB alone
//!     cargo run --release -p bench -- --write FOLDER --most 16    writes these files, and times nothing
//!
//! The Rust is `std::str::from_utf8` and `RawBibliography::parse`. The proved reader is timed
//! twice: `lent`, into rows that are there and were written before, and `fresh`, into rows that are
//! allocated, zeroed, for each run, since the Rust allocates too. `judged` is a reading into no rows:
//! the check and the first of the two passes, without which a refusal could not leave the rows alone. Nothing that is given back to the
//! system is in any of the times. The three take turns in one process on one file, so that noise
//! meets all alike: compare the ratios, which are the Rust's time divided by the proved reader's
//! (above 1 the proved reader is faster), of the best times and of the medians.
//!
//! Each shape is read at two sizes. `growth` is how much a byte of the larger costs, measured in
//! bytes of the smaller, by the best times: about 1 where the cost grows in proportion. Last come
//! files of some 15 KB, as authors send them, one by one; `--processor` is too coarse for these.
//!
//! Then the UTF-8 check alone beside `std::str::from_utf8`; packing and unpacking the rows beside the
//! Rust packer, with ratios of the same sense; and salvage: on files sound and damaged beside strict
//! reading, where the figure is salvage's time divided by strict reading's, and on files of many
//! pieces. Then what is refused, strictly read and salvaged, beside the Rust.
//! And literals, and all fields of files, resolved and formatted, beside the Rust's functions;
//! titles formatted in sentence case beside the Rust's; and a program against the names of the Rust's modules, over the original and over the proved library.

mod buckets;
mod literals;
mod names;
mod packing;
mod refused;
mod salvage;
mod sentences;
mod shapes;
mod timing;
mod utf8;
mod wholes;

use std::path::PathBuf;
use std::process::ExitCode;
use std::slice;

use timing::{growth, Times};

/// Measured for one text, or for several one after the other: the Rust, the proved reader into lent rows, into fresh ones and into none.
struct Measured {
    bytes: usize,
    rust: Times,
    lent: Times,
    fresh: Times,
    judged: Times,
}

/// What the command line asks for.
struct Wanted {
    rounds: usize,
    only: String,
    folders: Vec<PathBuf>,
    /// The longest of the files whose names have one hash, in million bytes.
    most: usize,
    /// Where these files are to be written.
    write: Option<PathBuf>,
}

impl Wanted {
    fn has(&self, part: &str) -> bool {
        self.only.is_empty() || self.only == part
    }
}

fn main() -> ExitCode {
    let wanted = match wanted() {
        Ok(wanted) => wanted,
        Err(fault) => {
            eprintln!("bench: {fault}");
            return ExitCode::from(2);
        }
    };
    if let Some(folder) = &wanted.write {
        return match buckets::write(folder, wanted.most) {
            Ok(()) => ExitCode::SUCCESS,
            Err(error) => {
                eprintln!("bench: cannot write to {}: {error}", folder.display());
                ExitCode::from(2)
            }
        };
    }
    let rounds = wanted.rounds;
    println!("{rounds} rounds; MB/s of the best run (of the median), 1 MB = 1,000,000 bytes");
    rows(&wanted);
    let Wanted { folders, .. } = &wanted;
    if wanted.has("literals") {
        literals::run(folders, rounds);
    }
    if wanted.has("sentences") {
        sentences::run(folders, rounds);
    }
    if wanted.has("names") {
        names::run(folders, rounds);
    }
    if wanted.has("wholes") {
        wholes::run(folders, rounds);
    }
    if wanted.has("buckets") {
        // They may take long.
        buckets::run(wanted.most, rounds.min(3));
    }
    ExitCode::SUCCESS
}

/// All that gives rows or takes them.
fn rows(wanted: &Wanted) {
    let Wanted {
        rounds,
        ref folders,
        ..
    } = *wanted;
    if wanted.has("reading") {
        shapes::all(folders)
            .iter()
            .for_each(|shape| read(shape, rounds));
        typical(folders, rounds);
    }
    let real = shapes::real(folders);
    if wanted.has("utf8") {
        utf8::run(real.as_ref(), rounds);
    }
    if wanted.has("packing") {
        for shape in real.into_iter().chain([shapes::million()]) {
            packing::run(&shape, rounds);
        }
    }
    if wanted.has("salvage") {
        salvage::run(folders, rounds);
    }
    if wanted.has("refused") {
        refused::run(folders, rounds);
    }
}

fn wanted() -> Result<Wanted, String> {
    let mut wanted = Wanted {
        rounds: 11,
        only: String::new(),
        folders: Vec::new(),
        most: 1,
        write: None,
    };
    let mut words = std::env::args().skip(1);
    while let Some(word) = words.next() {
        match word.as_str() {
            "--rounds" => wanted.rounds = number(&word, words.next())?,
            "--most" => wanted.most = number(&word, words.next())?,
            "--write" => wanted.write = Some(words.next().ok_or("--write takes a folder")?.into()),
            "--processor" => timing::by_processor(),
            "--empty-places" => refused::with_empty_places(),
            "--only" => wanted.only = words.next().ok_or("--only takes a word")?,
            _ => wanted.folders.push(word.into()),
        }
    }
    Ok(wanted)
}

fn number(option: &str, word: Option<String>) -> Result<usize, String> {
    let number = word.and_then(|word| word.parse().ok());
    number
        .filter(|number| *number > 0)
        .ok_or(format!("{option} takes a number"))
}

fn read(shape: &shapes::Shape, rounds: usize) {
    println!("{}", shape.name);
    let small = measure(slice::from_ref(&shape.small), rounds);
    let full = measure(slice::from_ref(&shape.full), rounds);
    let times = [
        ("Rust", &small.rust, &full.rust),
        ("lent", &small.lent, &full.lent),
        ("fresh", &small.fresh, &full.fresh),
    ];
    growth(small.bytes, full.bytes, &times);
}

/// Files as authors send them, read one after the other.
fn typical(folders: &[PathBuf], rounds: usize) {
    let files = shapes::typical(folders);
    if !files.is_empty() {
        println!("typical files: {} of some 15 KB each", files.len());
        measure(&files, rounds);
    }
}

fn measure(files: &[Vec<u8>], rounds: usize) -> Measured {
    let counts: Vec<usize> = files.iter().map(|file| agreed_rows(file)).collect();
    let most = 4 * counts.iter().max().expect("there is a file");
    let mut rows = vec![1; most];
    let mut measured = Measured {
        bytes: files.iter().map(Vec::len).sum(),
        rust: Times::new(),
        lent: Times::new(),
        fresh: Times::new(),
        judged: Times::new(),
    };
    for _ in 0..rounds {
        measured.rust.run_each(files, timing::the_rust);
        measured
            .lent
            .run_each(files, |text| proved::read(text, &mut rows));
        let mut needs = counts.iter();
        measured.fresh.run_each(files, |text| {
            let mut rows = vec![0; 4 * needs.next().expect("a count for each file")];
            proved::read(text, &mut rows);
            rows
        });
        measured
            .judged
            .run_each(files, |text| proved::read(text, &mut []));
    }
    measured.print(counts.iter().sum());
    measured
}

impl Measured {
    fn print(&self, rows: usize) {
        let (bytes, rust) = (self.bytes, &self.rust);
        println!("  {bytes} bytes, {rows} rows");
        println!("    Rust   {}", rust.speed(bytes));
        for (name, times) in [("lent", &self.lent), ("fresh", &self.fresh)] {
            let (speed, ratio) = (times.speed(bytes), rust.ratio(times));
            println!("    {name:6} {speed}, ratio {ratio}");
        }
        let (speed, part) = (self.judged.speed(bytes), self.judged.ratio(&self.lent));
        println!("    judged {speed}, {part} of lent's time");
    }
}

/// The number of rows, on which both readers agree. A benchmark of a wrong answer says nothing.
fn agreed_rows(text: &[u8]) -> usize {
    let rows = oracle::read(text)
        .expect("the Rust accepts every shape")
        .len();
    let mut room = vec![0; 4 * rows];
    let answer = proved::read(text, &mut room);
    assert_eq!(
        (answer.number, answer.count as usize),
        (0, rows),
        "the readers differ"
    );
    rows
}
