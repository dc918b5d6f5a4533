//! How far a long comparison is: a line on standard error that is written over, if that is a terminal.

use std::io::{self, IsTerminal, Write};
use std::sync::atomic::{AtomicU64, Ordering};
use std::sync::Mutex;
use std::time::{Duration, Instant};

/// How often the line is written.
const EVERY: Duration = Duration::from_millis(500);

/// Which part of a longer run this is; stands before each line.
static PART: Mutex<String> = Mutex::new(String::new());

pub fn set_part(text: String) {
    *PART.lock().unwrap() = text;
}

pub struct Progress {
    name: String,
    total: u64,
    done: AtomicU64,
    begun: Instant,
    shown: Mutex<Instant>,
    is_seen: bool,
}

impl Progress {
    /// Of `total` cases, none is done.
    pub fn new(name: &str, total: u64) -> Progress {
        Progress::seen(name, total, io::stderr().is_terminal())
    }

    /// One that is never shown.
    pub fn unseen() -> Progress {
        Progress::seen("", 0, false)
    }

    fn seen(name: &str, total: u64, is_seen: bool) -> Progress {
        let now = Instant::now();
        Progress {
            name: name.to_string(),
            total,
            done: AtomicU64::new(0),
            begun: now,
            shown: Mutex::new(now),
            is_seen,
        }
    }

    /// So many more cases are done.
    pub fn add(&self, cases: u64) {
        if !self.is_seen {
            return;
        }
        let done = self.done.fetch_add(cases, Ordering::Relaxed) + cases;
        if let Ok(mut shown) = self.shown.try_lock() {
            if shown.elapsed() >= EVERY {
                *shown = Instant::now();
                self.show(done.min(self.total));
            }
        }
    }

    fn show(&self, done: u64) {
        let (part, name, total) = (PART.lock().unwrap(), &self.name, self.total);
        let left = self.begun.elapsed().as_secs_f64() * (total - done) as f64 / done as f64;
        let (minutes, seconds) = (left as u64 / 60, left as u64 % 60);
        eprint!("\r\x1b[K{part}{name}: {done} of {total} cases, {minutes} min {seconds} s left");
        let _ = io::stderr().flush();
    }
}

impl Drop for Progress {
    fn drop(&mut self) {
        if self.is_seen {
            eprint!("\r\x1b[K");
        }
    }
}
