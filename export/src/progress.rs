//! One line on a terminal that says how far long work is.

use std::io::{self, IsTerminal, Write};
use std::time::{Duration, Instant};

const BEFORE_FIRST: Duration = Duration::from_millis(500);
const BETWEEN: Duration = Duration::from_millis(100);

pub struct Progress {
    next: Option<Instant>,
    is_shown: bool,
}

impl Progress {
    /// Without a terminal nothing is ever shown.
    pub fn new() -> Self {
        let next = io::stderr().is_terminal().then(|| Instant::now() + BEFORE_FIRST);
        Self { next, is_shown: false }
    }

    pub fn show(&mut self, words: impl FnOnce() -> String) {
        let now = Instant::now();
        if self.next.is_some_and(|next| next <= now) {
            let _ = write!(io::stderr(), "\r\x1b[K{}", words());
            self.next = Some(now + BETWEEN);
            self.is_shown = true;
        }
    }

    /// Before anything else is printed, and at the end.
    pub fn clear(&mut self) {
        if self.is_shown {
            let _ = write!(io::stderr(), "\r\x1b[K");
            self.is_shown = false;
        }
    }
}
