//! Progress on a terminal; nothing where standard error is no terminal.

use std::io::{IsTerminal, Write, stderr};
use std::time::{Duration, Instant};

pub struct Progress {
    what: String,
    shown: Option<Instant>,
    is_terminal: bool,
}

impl Progress {
    pub fn new(what: &str) -> Progress {
        Progress { what: what.to_string(), shown: None, is_terminal: stderr().is_terminal() }
    }

    pub fn show(&mut self, done: usize, of: usize) {
        let due = self.shown.is_none_or(|last| last.elapsed() > Duration::from_millis(200));
        if self.is_terminal && due {
            self.shown = Some(Instant::now());
            let _ = write!(stderr(), "\r\x1b[K{}: {done} of {of}", self.what);
        }
    }
}

impl Drop for Progress {
    fn drop(&mut self) {
        if self.is_terminal && self.shown.is_some() {
            let _ = write!(stderr(), "\r\x1b[K");
        }
    }
}
