//! Literals resolved and then formatted verbatim: the proved calls beside the Rust's functions.
//!
//! The Rust is `parse_field` of a field with one element, and `format_verbatim` of its chunks, both of
//! which allocate; the proved calls write into memory that is there and was written before. MB are of
//! the literals' bytes.
//!
//! The proved call is given a file, and checks all of it: so it is timed twice, once with each
//! literal as a file of its own (`alone`), and once in the file that it stands in (`in its file`). And
//! all literals are put into one file each for as many bytes as a file may have, which the call over a
//! whole file resolves (`one call`).

use std::collections::HashMap;
use std::hint::black_box;
use std::path::PathBuf;

use cases::fields::{literal, Draft};
use oracle::mechanics::is_verbatim_field;
use oracle::raw::{Field, RawChunk};
use oracle::resolve::parse_field;
use oracle::{ChunksExt, Kind, Row, Spanned, CHUNK_NUMBERS, LONGEST_LITERAL};
use proved::Lent;

use crate::timing::{growth, Times};
use crate::wholes::{Read, Rooms as WholeRooms};

/// The longest of the commands' literals is as long as it may be, and the other half as long.
const SIZES: [usize; 2] = [LONGEST_LITERAL / 2, LONGEST_LITERAL];

/// So many times a literal is resolved in one run, so that a clock can tell.
const TIMES: usize = 100;

/// Commands of which a long literal is made.
const COMMANDS: [&str; 5] = [
    "\\'e",
    "\\'{e}",
    "\\emph{a}",
    "\\textquotedblleft a",
    "{\\i}$x$",
];

/// A literal, with the file that it stands in and the name of its field.
struct Literal<'a> {
    file: &'a [u8],
    start: usize,
    end: usize,
    name: &'a str,
}

impl<'a> Literal<'a> {
    fn text(&self) -> &'a str {
        let bytes = &self.file[self.start..self.end];
        std::str::from_utf8(bytes).expect("a literal of a file that is accepted")
    }

    fn field(&self) -> Field<'a> {
        let chunk = RawChunk::Normal(self.text());
        vec![Spanned::new(chunk, self.start..self.end)]
    }

    fn verbatim(&self) -> u32 {
        is_verbatim_field(self.name).into()
    }
}

/// What the proved calls are lent, over and over.
struct Rooms {
    scratch: Vec<u8>,
    chunks: Vec<u32>,
    text: Vec<u8>,
    bytes: Vec<u8>,
}

impl Rooms {
    fn new() -> Self {
        Self {
            scratch: vec![1; proved::LEAST_SCRATCH],
            chunks: vec![1; CHUNK_NUMBERS * (LONGEST_LITERAL + 1)],
            text: vec![1; 2 * LONGEST_LITERAL],
            bytes: vec![1; 4 * LONGEST_LITERAL],
        }
    }

    /// Resolves a literal of a file and formats its chunks; gives the bytes that came of it.
    fn resolve(&mut self, file: &[u8], start: usize, end: usize, verbatim: u32) -> Option<&[u8]> {
        let mut lent = Lent {
            scratch: &mut self.scratch,
            chunks: &mut self.chunks,
            text: &mut self.text,
        };
        let answer = proved::resolve_literal(file, start, end, verbatim, &mut lent);
        if answer.number != 0 {
            return None;
        }
        let text = &self.text[..answer.bytes as usize];
        let rows = &self.chunks[..CHUNK_NUMBERS * answer.count as usize];
        let formatted = proved::format_verbatim(text, rows, &mut self.bytes);
        assert_eq!(formatted.number, 0, "chunks of resolving are sound");
        Some(&self.bytes[..formatted.count as usize])
    }
}

pub fn run(folders: &[PathBuf], rounds: usize) {
    println!(
        "literals resolved and formatted; composition by {}",
        oracle::COMPOSITION
    );
    let files = cases::files(folders);
    let read = |file: &Vec<u8>| oracle::read(file).ok();
    let rows: Vec<Option<Vec<Row>>> = files.iter().map(read).collect();
    let mut literals = Vec::new();
    for (file, rows) in files.iter().zip(&rows) {
        of_file(file, rows.as_deref().unwrap_or_default(), &mut literals);
    }
    if literals.is_empty() {
        println!("  no real literal: name a folder that has .bib files");
    } else {
        real(&literals, rounds);
    }
    commands(rounds);
}

/// The literals of a file that both resolve. Of others, which are few, there is no time to compare.
fn of_file<'a>(file: &'a [u8], rows: &[Row], literals: &mut Vec<Literal<'a>>) {
    let mut rooms = Rooms::new();
    let mut name = "";
    for row in rows {
        let (start, end) = (row.start as usize, row.end as usize);
        if row.kind == Kind::FieldName as u32 || row.kind == Kind::DefinitionName as u32 {
            name = std::str::from_utf8(&file[start..end]).expect("the file is UTF-8");
        }
        if row.kind != Kind::Literal as u32 {
            continue;
        }
        let literal = Literal {
            file,
            start,
            end,
            name,
        };
        let rust = parse_field(name, &literal.field(), &HashMap::new());
        let formatted = rust.ok().map(|chunks| chunks.format_verbatim());
        let text = literal.text().as_bytes();
        let proved = rooms.resolve(text, 0, text.len(), literal.verbatim());
        if end - start <= LONGEST_LITERAL {
            let same = formatted.as_deref().map(str::as_bytes) == proved;
            assert!(same, "the resolvers differ on {}", literal.text());
        }
        if proved.is_some() {
            literals.push(literal);
        }
    }
}

/// Each check of a long file takes longer than all else: one in so many literals shows it.
fn one_in(literals: &[Literal]) -> usize {
    1 + literals.len() / 5_000
}

fn real(literals: &[Literal], rounds: usize) {
    let fields: Vec<Field> = literals.iter().map(Literal::field).collect();
    let [mut rust, mut alone, mut one_call, mut in_file] = [(); 4].map(|()| Times::new());
    let (map, mut rooms) = (HashMap::new(), Rooms::new());
    let drafts = put_together(literals);
    let mut wholes: Vec<_> = drafts.iter().map(lent_whole).collect();
    for _ in 0..rounds {
        rust.run(|| {
            let each = literals.iter().zip(&fields);
            each.map(|(literal, field)| of_rust(literal.name, field, &map))
                .sum::<usize>()
        });
        alone.run(|| {
            let each = literals.iter().map(|literal| {
                let text = literal.text().as_bytes();
                of_proved(&mut rooms, text, 0, text.len(), literal.verbatim())
            });
            each.sum::<usize>()
        });
        one_call.run(|| {
            let each = wholes.iter_mut();
            each.map(|(rooms, read)| rooms.resolve_and_format(read))
                .sum::<usize>()
        });
        in_file.run(|| {
            let some = literals.iter().step_by(one_in(literals));
            let some = some.map(|l| of_proved(&mut rooms, l.file, l.start, l.end, l.verbatim()));
            some.sum::<usize>()
        });
    }
    print(
        literals,
        &rust,
        &[("alone", &alone), ("one call", &one_call)],
        &in_file,
    );
}

/// The Rust's times, others beside them, and those of some literals in their files.
fn print(literals: &[Literal], rust: &Times, others: &[(&str, &Times)], in_file: &Times) {
    let bytes = |literals: &mut dyn Iterator<Item = &Literal>| -> usize {
        literals.map(|literal| literal.end - literal.start).sum()
    };
    let all = bytes(&mut literals.iter());
    println!("  {} literals of real files, {all} bytes", literals.len());
    let each = |times: &Times| 1e9 * times.best() / literals.len() as f64;
    let nanoseconds = each(rust);
    println!(
        "    Rust        {}, {nanoseconds:.0} ns each",
        rust.speed(all)
    );
    for (name, times) in others {
        let (speed, ratio, nanoseconds) = (times.speed(all), rust.ratio(times), each(times));
        println!("    {name:11} {speed}, ratio {ratio}, {nanoseconds:.0} ns each");
    }
    let some = bytes(&mut literals.iter().step_by(one_in(literals)));
    println!("    in its file {}", in_file.speed(some));
}

/// The literals as fields of one entry, in as few files as they fit into.
fn put_together(literals: &[Literal]) -> Vec<Draft> {
    const MOST: usize = 16_000_000;
    let mut drafts: Vec<Draft> = Vec::new();
    for one in literals {
        if drafts.last().is_none_or(|draft| draft.file.len() > MOST) {
            drafts.push(Draft::default());
            drafts.last_mut().expect("it was made").entry();
        }
        let draft = drafts.last_mut().expect("there is one");
        draft.field(one.name, &[literal(one.text())]);
    }
    drafts
}

/// A file of literals, and what is lent for it.
fn lent_whole(draft: &Draft) -> (WholeRooms, Read<'_>) {
    let read = Read::new(draft.file.as_bytes(), draft.rows.clone());
    (WholeRooms::of(&read), read)
}

fn of_rust(name: &str, field: &Field, map: &HashMap<&str, &Field<'_>>) -> usize {
    let chunks = parse_field(name, black_box(field), map).expect("the Rust takes it");
    black_box(chunks.format_verbatim()).len()
}

fn of_proved(rooms: &mut Rooms, file: &[u8], start: usize, end: usize, verbatim: u32) -> usize {
    let formatted = rooms.resolve(file, start, end, verbatim);
    formatted.expect("both take it").len()
}

/// A literal as long as it may be, of one command over and over, beside one half as long.
fn commands(rounds: usize) {
    for part in COMMANDS {
        let literals = SIZES.map(|size| part.repeat(size / part.len()));
        let mut times = [0, 1].map(|_| (Times::new(), Times::new()));
        let (map, mut rooms) = (HashMap::new(), Rooms::new());
        for (literal, (rust, proved)) in literals.iter().zip(&mut times) {
            let span = 0..literal.len();
            let field = vec![Spanned::new(RawChunk::Normal(literal.as_str()), span)];
            let rust_says = of_rust("title", &field, &map);
            let proved_says = of_proved(&mut rooms, literal.as_bytes(), 0, literal.len(), 0);
            assert_eq!(rust_says, proved_says, "the resolvers differ on {part}");
            for _ in 0..rounds {
                rust.run(|| {
                    (0..TIMES)
                        .map(|_| of_rust("title", &field, &map))
                        .sum::<usize>()
                });
                proved.run(|| {
                    let file = literal.as_bytes();
                    let each = (0..TIMES).map(|_| of_proved(&mut rooms, file, 0, file.len(), 0));
                    each.sum::<usize>()
                });
            }
        }
        let bytes = literals.map(|literal| literal.len());
        println!("  `{part}` over and over");
        for ((rust, proved), bytes) in times.iter().zip(bytes) {
            println!("    {bytes} bytes");
            println!("      Rust   {}", rust.speed(TIMES * bytes));
            let ratio = rust.ratio(proved);
            println!(
                "      proved {}, ratio {ratio}",
                proved.speed(TIMES * bytes)
            );
        }
        let [small, full] = &times;
        let both = [("Rust", &small.0, &full.0), ("proved", &small.1, &full.1)];
        growth(bytes[0], bytes[1], &both);
    }
}
