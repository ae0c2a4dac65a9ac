//! Progress on a terminal; elsewhere nothing is shown.

use std::io::{self, IsTerminal, Write};
use std::time::{Duration, Instant};

/// Shows how many of the files are checked, a few times a second.
pub struct Progress {
    total: usize,
    shown: Option<Instant>,
    on_terminal: bool,
}

impl Progress {
    /// Progress over so many files.
    pub fn new(total: usize) -> Progress {
        Progress {
            total,
            shown: None,
            on_terminal: io::stderr().is_terminal(),
        }
    }

    /// Says that so many are done.
    pub fn at(&mut self, done: usize) {
        let pause = Duration::from_millis(200);
        if self.on_terminal && self.shown.is_none_or(|shown| shown.elapsed() >= pause) {
            let share = 100 * done / self.total.max(1);
            eprint!("\r{done} of {} records checked, {share} %", self.total);
            self.shown = Some(Instant::now());
        }
    }

    /// Takes the line away, before something else is printed.
    pub fn clear(&mut self) {
        if self.shown.take().is_some() {
            eprint!("\r\x1b[K");
            // The terminal may be gone; the check goes on.
            let _ = io::stderr().flush();
        }
    }
}
