//! A line on a terminal's standard error while work takes more than a second.

use std::io::{self, IsTerminal, Write};
use std::time::{Duration, Instant};

pub struct Progress {
    /// When the line is due next; none where standard error is no terminal.
    due: Option<Instant>,
    shown: bool,
}

impl Progress {
    pub fn new() -> Self {
        Progress { due: io::stderr().is_terminal().then(|| Instant::now() + Duration::from_secs(1)), shown: false }
    }

    /// So many are done; five times a second it shows.
    pub fn done(&mut self, done: usize, of: usize) {
        let Some(due) = self.due else { return };
        let now = Instant::now();
        if due <= now {
            let _ = write!(io::stderr(), "\rmarked {done} of {of}");
            self.due = Some(now + Duration::from_millis(200));
            self.shown = true;
        }
    }
}

/// Takes the line away.
impl Drop for Progress {
    fn drop(&mut self) {
        if self.shown {
            let _ = write!(io::stderr(), "\r\x1b[K");
        }
    }
}
