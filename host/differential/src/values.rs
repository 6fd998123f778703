//! Fields of a file one by one: the proved call, and the Rust with what 01 adds to it, with several
//! rooms lent, and everything compared.

use oracle::{Fields, Given};

use crate::judge::Judge;
use crate::lent::{rooms, Expected, Input, Output, Rooms, Tried, FLAGS, SCRATCH};
use crate::report;

/// Which row is chosen, and how.
#[derive(Clone, Copy, Debug)]
pub struct Asked {
    pub which: usize,
    pub verbatim: u32,
    /// The length of the scratch.
    pub scratch: usize,
}

/// What asks both about files with names: about some fields of them one by one, or about all of them
/// at once.
pub trait Asks {
    fn new() -> Self;

    /// Asks about these rows, verbatim and not, with scratch of this length or, where none is said, of
    /// lengths that are enough.
    fn ask(
        &mut self,
        judge: &mut Judge,
        given: (Given, &Fields),
        chosen: impl Iterator<Item = usize>,
        scratch: Option<usize>,
        tried: Tried,
    );

    /// Every value.
    fn check(&mut self, judge: &mut Judge, given: Given, tried: Tried) {
        let values = (0..given.rows.len() / 4).filter(|row| given.rows[4 * row] == 5);
        self.check_these(judge, given, values, tried);
    }

    /// Every row number, whether it is a value's or not, and some that are past the rows.
    fn check_numbers(&mut self, judge: &mut Judge, given: Given) {
        let count = given.rows.len() / 4;
        let far = [1 << 30, 1 << 32, 1 << 62, usize::MAX];
        self.check_these(judge, given, (0..count + 2).chain(far), Tried::No);
    }

    /// These rows.
    fn check_these(
        &mut self,
        judge: &mut Judge,
        given: Given,
        chosen: impl Iterator<Item = usize>,
        tried: Tried,
    ) {
        self.ask(judge, (given, &Fields::new(given)), chosen, None, tried);
    }
}

/// Asks about fields one by one.
pub struct Values {
    input: Input,
    output: Output,
    /// Cases so far, for flags and rooms to take turns.
    turn: usize,
}

impl Asks for Values {
    fn new() -> Self {
        Self {
            input: Input::new(),
            output: Output::new(),
            turn: 0,
        }
    }

    fn ask(
        &mut self,
        judge: &mut Judge,
        (given, fields): (Given, &Fields),
        chosen: impl Iterator<Item = usize>,
        scratch: Option<usize>,
        tried: Tried,
    ) {
        self.input.take(given);
        for which in chosen {
            self.turn += 1;
            for verbatim in [0, FLAGS[self.turn % FLAGS.len()]] {
                let enough = SCRATCH[self.turn % SCRATCH.len()];
                let asked = Asked {
                    which,
                    verbatim,
                    scratch: scratch.unwrap_or(enough),
                };
                self.ask_one(judge, fields, asked, tried);
            }
        }
        self.input.check(judge, given);
    }
}

impl Values {
    fn ask_one(&mut self, judge: &mut Judge, fields: &Fields, asked: Asked, tried: Tried) {
        let expected = fields.resolve(asked.which, asked.verbatim != 0, asked.scratch);
        for rooms in rooms(&expected, tried, self.turn) {
            self.compare(judge, asked, &expected, rooms);
        }
    }

    fn compare(&mut self, judge: &mut Judge, asked: Asked, expected: &Expected, rooms: Rooms) {
        let file = self.input.lent();
        self.output.compare(
            judge,
            expected,
            (asked.scratch, rooms),
            |lent| proved::resolve_field(file, asked.which, asked.verbatim, lent),
            |case| report::field(case, &file, asked, rooms),
        );
    }
}
