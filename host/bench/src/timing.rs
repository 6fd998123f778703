//! Times of runs.

use std::hint::black_box;
use std::sync::atomic::{AtomicBool, Ordering};
use std::time::Instant;

use oracle::raw::RawBibliography;

/// Whether the processor's time is taken, and not the wall's.
static BY_PROCESSOR: AtomicBool = AtomicBool::new(false);

/// From here on the time that this thread has on a processor is taken: on a machine that has other work
/// the wall's time says little.
pub fn by_processor() {
    BY_PROCESSOR.store(true, Ordering::Relaxed);
}

/// A clock that runs by the wall or by the processor.
struct Clock {
    wall: Instant,
    processor: f64,
}

impl Clock {
    fn start() -> Self {
        Self {
            wall: Instant::now(),
            processor: processor(),
        }
    }

    /// Seconds since the start.
    fn elapsed(&self) -> f64 {
        match BY_PROCESSOR.load(Ordering::Relaxed) {
            true => processor() - self.processor,
            false => self.wall.elapsed().as_secs_f64(),
        }
    }
}

/// The seconds that this thread had on a processor, by Linux; 0 where they are not asked for.
fn processor() -> f64 {
    if !BY_PROCESSOR.load(Ordering::Relaxed) {
        return 0.0;
    }
    let times = std::fs::read_to_string("/proc/thread-self/schedstat");
    let times = times.expect("Linux says how long a thread has run");
    let nanoseconds = times
        .split(' ')
        .next()
        .and_then(|time| time.parse::<f64>().ok());
    1e-9 * nanoseconds.expect("its first number is that in nanoseconds")
}

/// The times of several runs, in seconds.
pub struct Times(Vec<f64>);

impl Times {
    pub fn new() -> Self {
        Self(Vec::new())
    }

    /// Times one run. What it gives is dropped after the clock has stopped.
    pub fn run<T>(&mut self, run: impl FnOnce() -> T) {
        let clock = Clock::start();
        let given = black_box(run());
        self.0.push(clock.elapsed());
        drop(given);
    }

    /// Times one run over each of several files, and adds the times up. What a file gives is dropped
    /// while the clock stands still.
    pub fn run_each<'a, T>(&mut self, files: &'a [Vec<u8>], mut run: impl FnMut(&'a [u8]) -> T) {
        let mut sum = 0.0;
        for file in files {
            let clock = Clock::start();
            let given = black_box(run(file));
            sum += clock.elapsed();
            drop(given);
        }
        self.0.push(sum);
    }

    pub fn best(&self) -> f64 {
        self.0.iter().copied().fold(f64::INFINITY, f64::min)
    }

    fn median(&self) -> f64 {
        let mut sorted = self.0.clone();
        sorted.sort_by(f64::total_cmp);
        sorted[sorted.len() / 2]
    }

    /// MB/s by the best run, and by the median.
    pub fn speed(&self, bytes: usize) -> String {
        let megabytes = bytes as f64 / 1e6;
        let (best, median) = (megabytes / self.best(), megabytes / self.median());
        format!("{best:8.1} MB/s ({median:8.1})")
    }

    /// These times divided by others: of the best runs, and of the medians.
    pub fn ratio(&self, other: &Self) -> String {
        let (best, median) = (self.best() / other.best(), self.median() / other.median());
        format!("{best:.2} ({median:.2})")
    }
}

/// Prints how much a byte of the larger text costs, measured in bytes of the smaller, for each name
/// with its times on both.
pub fn growth(small: usize, full: usize, times: &[(&str, &Times, &Times)]) {
    let by = full as f64 / small as f64;
    let each = |(name, small, full): &(&str, &Times, &Times)| {
        format!("{name} {:.2}", full.best() / small.best() / by)
    };
    let each: Vec<String> = times.iter().map(each).collect();
    println!("  growth at {by:.2} times the bytes: {}", each.join(", "));
}

/// The Rust, from bytes to its own form of the file.
pub fn the_rust(text: &[u8]) -> RawBibliography<'_> {
    let text = std::str::from_utf8(black_box(text)).expect("every shape is UTF-8");
    RawBibliography::parse(text).expect("the Rust accepts every shape")
}
