//! The form in which cases are written, and read again.

use oracle::Refusal;

/// A file, or a literal of a file.
pub enum Case<'a> {
    File(&'a [u8]),
    Literal(Literal<'a>),
}

/// A literal: its file, where it starts and ends there, and whether its field is verbatim.
pub struct Literal<'a> {
    pub file: &'a [u8],
    pub start: u16,
    pub end: u16,
    pub is_verbatim: bool,
}

/// The numbers of rows, and their text.
struct Accepted {
    numbers: Vec<u32>,
    text: Vec<u8>,
}

/// A list of cases, and the number that each is answered with.
#[derive(Default)]
pub struct List {
    pub bytes: Vec<u8>,
    pub numbers: Vec<usize>,
}

impl List {
    pub fn add(&mut self, case: &Case) {
        let number = case.put(&mut self.bytes);
        self.numbers.push(number as usize);
    }
}

impl Case<'_> {
    fn answer(&self) -> Result<Accepted, Refusal> {
        match self {
            Case::File(file) => oracle::read(file).map(|rows| Accepted {
                numbers: (rows.iter())
                    .flat_map(|row| [row.kind, row.detail, row.start, row.end])
                    .collect(),
                text: Vec::new(),
            }),
            Case::Literal(l) => {
                let places = (l.start.into(), l.end.into());
                let scratch = oracle::LEAST_SCRATCH;
                let answer = oracle::resolve_literal(l.file, places, l.is_verbatim, scratch);
                answer.map(|resolved| Accepted {
                    numbers: resolved.rows,
                    text: resolved.text,
                })
            }
        }
    }

    /// Writes the case and what the Rust answers. Gives the number.
    pub fn put(&self, bytes: &mut Vec<u8>) -> u32 {
        match self {
            Case::File(file) => put_file(bytes, 0, file),
            Case::Literal(l) => {
                put_file(bytes, 1, l.file);
                bytes.extend(l.start.to_be_bytes());
                bytes.extend(l.end.to_be_bytes());
                bytes.push(l.is_verbatim.into());
            }
        }
        put_answer(bytes, self.answer())
    }

    /// The case that starts at a place of a list, and where it ends.
    pub fn read(list: &[u8], at: usize) -> Option<(Case<'_>, usize)> {
        let two = |at: usize| Some(u16::from_be_bytes([*list.get(at)?, *list.get(at + 1)?]));
        let to = at + 3 + usize::from(two(at + 1)?);
        let file = list.get(at + 3..to)?;
        let (case, answer) = match list.get(at)? {
            0 => (Case::File(file), to),
            _ => {
                let literal = Literal {
                    file,
                    start: two(to)?,
                    end: two(to + 2)?,
                    is_verbatim: *list.get(to + 4)? != 0,
                };
                (Case::Literal(literal), to + 5)
            }
        };
        let length = match list.get(answer)? {
            0 => 5 + usize::from(two(answer + 3)?) + 2 * usize::from(two(answer + 1)?),
            _ => 5,
        };
        (answer + length <= list.len()).then_some((case, answer + length))
    }
}

fn wide(n: u32) -> [u8; 2] {
    (n as u16).to_be_bytes()
}

fn put_file(bytes: &mut Vec<u8>, kind: u8, file: &[u8]) {
    bytes.push(kind);
    bytes.extend(wide(file.len() as u32));
    bytes.extend(file);
}

fn put_answer(bytes: &mut Vec<u8>, answer: Result<Accepted, Refusal>) -> u32 {
    match answer {
        Ok(accepted) => {
            bytes.push(0);
            bytes.extend(wide(accepted.numbers.len() as u32));
            bytes.extend(wide(accepted.text.len() as u32));
            bytes.extend(accepted.text);
            accepted.numbers.iter().for_each(|n| bytes.extend(wide(*n)));
            0
        }
        Err(refusal) => {
            bytes.push(refusal.number as u8);
            bytes.extend(wide(refusal.start));
            bytes.extend(wide(refusal.end));
            refusal.number
        }
    }
}
