//! What 01's row-printing program must print for a file.

use std::fmt::Write;

/// The longest input of the program, and the rows that it lends.
const LONGEST: usize = 65_536;
const ROWS: usize = 4_096;

pub fn printed(file: &[u8]) -> String {
    if file.len() > LONGEST {
        return "refused 1 0 0\n".into();
    }
    match oracle::read(file) {
        Err(refusal) => format!(
            "refused {} {} {}\n",
            refusal.number, refusal.start, refusal.end
        ),
        Ok(rows) if rows.len() > ROWS => "refused 16 0 0\n".into(),
        Ok(rows) => {
            let mut lines = String::new();
            for row in &rows {
                let (kind, detail) = (row.kind, row.detail);
                writeln!(lines, "{kind} {detail} {} {}", row.start, row.end)
                    .expect("a string takes any line");
            }
            lines + &format!("rows {}\n", rows.len())
        }
    }
}
