//! Work on many files at once, with the output in their order.

use std::collections::BTreeMap;
use std::io;
use std::num::NonZero;
use std::sync::atomic::{AtomicUsize, Ordering};
use std::sync::{Condvar, Mutex, MutexGuard, PoisonError};
use std::thread;

/// What takes the results in the order of the files.
pub trait Sink: Send {
    type Outcome: Send;

    /// A part of the output of the file whose turn it is.
    fn part(&mut self, index: usize, part: &[u8]) -> io::Result<()>;

    /// The end of that file.
    fn end(&mut self, index: usize, outcome: Self::Outcome) -> io::Result<()>;
}

/// Whose turn it is.
pub struct Turns<S: Sink> {
    state: Mutex<State<S>>,
    turned: Condvar,
}

struct State<S: Sink> {
    next: usize,
    sink: S,
    /// Files that are done before their turn.
    done: BTreeMap<usize, (Vec<u8>, S::Outcome)>,
    /// The output failed: nothing more is written.
    failed: Option<io::Error>,
}

/// The output could not be written; `Turns` keeps why.
pub struct Failed;

impl<S: Sink> Turns<S> {
    /// Does the work for each number below `count`, on all cores, and hands back the sink.
    pub fn run(
        sink: S,
        count: usize,
        work: impl Fn(&mut Page<S>) -> Result<S::Outcome, Failed> + Sync,
    ) -> io::Result<S> {
        let turns = Self {
            state: Mutex::new(State {
                next: 0,
                sink,
                done: BTreeMap::new(),
                failed: None,
            }),
            turned: Condvar::new(),
        };
        let next = AtomicUsize::new(0);
        let worker = || {
            while let Some(index) =
                Some(next.fetch_add(1, Ordering::Relaxed)).filter(|i| *i < count)
            {
                if turns.one(index, &work).is_err() {
                    break;
                }
            }
        };
        let cores = thread::available_parallelism().map_or(1, NonZero::get);
        thread::scope(|scope| {
            for _ in 1..cores.min(count) {
                // One that cannot be started is done without.
                let _ = thread::Builder::new().spawn_scoped(scope, worker);
            }
            worker();
        });
        let state = turns
            .state
            .into_inner()
            .unwrap_or_else(PoisonError::into_inner);
        match state.failed {
            Some(error) => Err(error),
            None => Ok(state.sink),
        }
    }

    fn one(
        &self,
        index: usize,
        work: &impl Fn(&mut Page<S>) -> Result<S::Outcome, Failed>,
    ) -> Result<(), Failed> {
        let mut page = Page {
            turns: self,
            index,
            bytes: Vec::new(),
        };
        let outcome = work(&mut page)?;
        let bytes = std::mem::take(&mut page.bytes);
        let mut state = self.lock()?;
        state.done.insert(index, (bytes, outcome));
        let done = state.pass_on();
        self.turned.notify_all();
        done
    }

    fn lock(&self) -> Result<MutexGuard<'_, State<S>>, Failed> {
        let state = self.state.lock().unwrap_or_else(PoisonError::into_inner);
        if state.failed.is_some() {
            return Err(Failed);
        }
        Ok(state)
    }

    /// Waits until all files before this one are done.
    fn turn(&self, index: usize) -> Result<MutexGuard<'_, State<S>>, Failed> {
        let mut state = self.lock()?;
        while state.next != index {
            state = self
                .turned
                .wait(state)
                .unwrap_or_else(PoisonError::into_inner);
            if state.failed.is_some() {
                return Err(Failed);
            }
        }
        Ok(state)
    }
}

impl<S: Sink> State<S> {
    /// Hands over what is done, as far as its turn has come.
    fn pass_on(&mut self) -> Result<(), Failed> {
        while let Some((bytes, outcome)) = self.done.remove(&self.next) {
            let index = self.next;
            self.keep(|sink| {
                sink.part(index, &bytes)
                    .and_then(|()| sink.end(index, outcome))
            })?;
            self.next += 1;
        }
        Ok(())
    }

    fn keep(&mut self, write: impl FnOnce(&mut S) -> io::Result<()>) -> Result<(), Failed> {
        write(&mut self.sink).map_err(|error| {
            self.failed = Some(error);
            Failed
        })
    }
}

/// The output of one file, until its turn has come.
pub struct Page<'a, S: Sink> {
    turns: &'a Turns<S>,
    pub index: usize,
    bytes: Vec<u8>,
}

/// So many bytes are kept of a file's output; then it waits for its turn.
const MOST_KEPT: usize = 1 << 16;

/// A thread that ends in the middle of a file must not leave the others waiting.
impl<S: Sink> Drop for Page<'_, S> {
    fn drop(&mut self) {
        if thread::panicking() {
            let state = self.turns.state.lock();
            let failure = io::Error::other("the command failed");
            state.unwrap_or_else(PoisonError::into_inner).failed = Some(failure);
            self.turns.turned.notify_all();
        }
    }
}

impl<S: Sink> Page<'_, S> {
    pub fn write(&mut self, text: &[u8]) -> Result<(), Failed> {
        self.bytes.extend_from_slice(text);
        if self.bytes.len() > MOST_KEPT {
            let mut state = self.turns.turn(self.index)?;
            let written = state.keep(|sink| sink.part(self.index, &self.bytes));
            // The others hear of a failure.
            self.turns.turned.notify_all();
            written?;
            self.bytes.clear();
        }
        Ok(())
    }

    /// Waits until all files before this one are done: for work that is not to be done at once.
    pub fn wait(&self) -> Result<(), Failed> {
        self.turns.turn(self.index).map(drop)
    }
}

#[cfg(test)]
mod tests {
    use super::*;

    /// Keeps all that it takes.
    #[derive(Default)]
    struct Kept(Vec<u8>);

    impl Sink for Kept {
        type Outcome = u8;

        fn part(&mut self, _: usize, part: &[u8]) -> io::Result<()> {
            self.0.extend_from_slice(part);
            Ok(())
        }

        fn end(&mut self, _: usize, outcome: u8) -> io::Result<()> {
            self.0.push(outcome);
            Ok(())
        }
    }

    #[test]
    fn order() {
        let work = |page: &mut Page<Kept>| {
            // The first takes the longest, and says the most.
            let length = if page.index == 0 { 3 * MOST_KEPT } else { 1 };
            for _ in 0..length {
                page.write(b"x")?;
            }
            Ok(b'0' + page.index as u8)
        };
        let kept = Turns::run(Kept::default(), 5, work).ok().unwrap();
        assert_eq!(
            kept.0,
            ["x".repeat(3 * MOST_KEPT).as_bytes(), b"0x1x2x3x4"].concat()
        );
    }

    /// Nobody waits for a thread that is gone.
    #[test]
    fn failure() {
        let work = |page: &mut Page<Kept>| {
            assert_ne!(page.index, 0, "this one fails");
            page.wait()?;
            Ok(0)
        };
        let run = || Turns::run(Kept::default(), 5, work).is_err();
        assert!(std::panic::catch_unwind(run).is_err());
    }
}
