//! How far a long count is, on a terminal.

use std::io::{self, IsTerminal, Write};
use std::sync::Mutex;
use std::time::{Duration, Instant};

/// Nothing is said of what ends sooner.
const PATIENCE: Duration = Duration::from_secs(1);

/// It is said anew after so long.
const PAUSE: Duration = Duration::from_millis(200);

/// A line on standard error that is written over again and again, if that is a terminal.
pub struct Progress {
    total: u64,
    begin: Instant,
    /// When it was last said, if it was.
    last: Mutex<Option<Instant>>,
    visible: bool,
}

impl Progress {
    /// Of a count of so many shots.
    pub fn new(total: u64) -> Progress {
        Progress {
            total,
            begin: Instant::now(),
            last: Mutex::new(None),
            visible: io::stderr().is_terminal(),
        }
    }

    /// So many are done. Threads may call this at once.
    pub fn show(&self, done: u64) {
        if !self.visible || self.begin.elapsed() < PATIENCE {
            return;
        }
        let mut last = self.last.lock().expect("no thread ends in between");
        if last.is_some_and(|last| last.elapsed() < PAUSE) {
            return;
        }
        *last = Some(Instant::now());
        let total = self.total;
        let percent = u128::from(done) * 100 / u128::from(total.max(1));
        // What cannot be shown here is no reason to stop.
        _ = write!(io::stderr(), "\r{done} of {total} shots, {percent} % ");
    }

    /// Removes the line.
    pub fn clear(&self) {
        if self.last.lock().expect("no thread is left").is_some() {
            _ = write!(io::stderr(), "\r\x1b[K");
        }
    }
}
