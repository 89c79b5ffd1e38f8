//! A line on the terminal that says how far the work is, from its second second on.

use std::time::{Duration, Instant};

use crate::names::count;

const FIRST: Duration = Duration::from_secs(1);
const BETWEEN: Duration = Duration::from_millis(100);

pub struct Progress {
    what: &'static str,
    all: usize,
    next: Instant,
    shown: bool,
}

impl Progress {
    pub fn new(what: &'static str, all: usize, start: Instant) -> Progress {
        Progress { what, all, next: start + FIRST, shown: false }
    }

    /// What to write when so many are done: nothing, or a line in the place of the one before.
    pub fn at(&mut self, done: usize, now: Instant) -> Option<String> {
        if now < self.next {
            return None;
        }
        self.shown = true;
        self.next = now + BETWEEN;
        Some(format!("\r{}: {} of {} ", self.what, count(done), count(self.all)))
    }

    /// What takes the line away, before other lines are written.
    pub fn cleared(&mut self) -> Option<&'static str> {
        std::mem::take(&mut self.shown).then_some("\r\x1b[K")
    }
}
