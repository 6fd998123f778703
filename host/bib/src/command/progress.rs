//! A line on standard error that says where long work is, on a terminal only.

use std::io::{self, IsTerminal, Write};
use std::os::fd::AsFd;
use std::time::{Duration, Instant};

use crate::excerpt::cut;
use crate::system;

/// Work is long after this time; and the line changes no more often.
const PATIENCE: Duration = Duration::from_millis(300);

/// The columns of a terminal that does not say how many it has, and of what is no terminal.
const USUAL: usize = 80;

/// Back to the beginning of the line, and clear it.
const AGAIN: &str = "\r\x1b[K";

pub struct Progress {
    is_terminal: bool,
    /// Standard output goes there too.
    is_shared: bool,
    shown: bool,
    last: Instant,
}

/// Whether a stream goes to a terminal that knows more than plain text.
pub fn is_terminal(stream: &impl IsTerminal) -> bool {
    stream.is_terminal() && std::env::var_os("TERM").is_none_or(|terminal| terminal != "dumb")
}

/// The columns of a line that a stream's terminal does not break; one is left free at the end.
pub fn room(stream: &impl AsFd) -> usize {
    let columns = system::columns(stream).unwrap_or(USUAL);
    columns.saturating_sub(1).max(1)
}

impl Progress {
    pub fn new() -> Self {
        Self {
            is_terminal: is_terminal(&io::stderr()),
            is_shared: is_terminal(&io::stdout()),
            shown: false,
            last: Instant::now(),
        }
    }

    /// Shows where the work is, if it has been long enough since the last time.
    pub fn show(&mut self, line: impl FnOnce() -> String) {
        if self.is_terminal && self.last.elapsed() >= PATIENCE {
            // A line that the terminal broke could not be cleared.
            let line = cut(&line(), room(&io::stderr()));
            let _ = write!(io::stderr(), "{AGAIN}{line}");
            self.shown = true;
            self.last = Instant::now();
        }
    }

    /// Between two files: shows where the work is. If something is printed now, it makes room for
    /// that on a shared terminal.
    pub fn pass(&mut self, line: impl FnOnce() -> String, is_printed: bool) {
        if self.is_shared && is_printed {
            self.clear();
        } else {
            self.show(line);
        }
    }

    /// Makes room for something else.
    pub fn clear(&mut self) {
        if self.shown {
            let _ = write!(io::stderr(), "{AGAIN}");
            self.shown = false;
        }
    }
}
