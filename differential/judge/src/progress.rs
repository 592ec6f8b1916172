//! How far a long run is, on standard error.

use std::time::{Duration, Instant};

/// How often a line is written.
const EVERY: Duration = Duration::from_secs(10);

pub struct Progress {
    name: &'static str,
    count: usize,
    last: Instant,
}

impl Progress {
    pub fn new(name: &'static str, count: usize) -> Self {
        Self {
            name,
            count,
            last: Instant::now(),
        }
    }

    /// So many are tried. The clock is looked at once in 256 calls.
    pub fn at(&mut self, tried: usize, differences: usize) {
        if tried.is_multiple_of(256) && self.last.elapsed() >= EVERY {
            self.last = Instant::now();
            eprintln!(
                "{}: {tried} of {}, {differences} differences",
                self.name, self.count
            );
        }
    }
}
