//! How far long work has come, on standard error.
use crate::command::Console;
use std::time::{Duration, Instant};

/// Work of many steps. It says nothing in its first second, and then one line a second.
#[derive(Clone, Copy, Debug)]
pub struct Progress {
    what: &'static str,
    began: Instant,
    said: Duration,
}

/// How long it is silent.
const SECOND: Duration = Duration::from_secs(1);

impl Progress {
    /// Begins work on things called so.
    #[must_use]
    pub fn new(what: &'static str) -> Progress {
        Progress {
            what,
            began: Instant::now(),
            said: Duration::ZERO,
        }
    }

    /// Says what is begun that will take more than a second and cannot say how far it has come.
    pub fn ahead(console: &mut Console<'_>, what: &str) {
        let _ = writeln!(console.errors, "cocklesway: {what}, which takes some time");
        let _ = console.errors.flush();
    }

    /// Says how many of how many things are done, if a second has passed since it said so last.
    pub fn at(&mut self, console: &mut Console<'_>, done: usize, of: usize) {
        let passed = self.began.elapsed();
        if passed < self.said + SECOND {
            return;
        }
        self.said = passed;
        let what = self.what;
        // If standard error cannot be written, only the progress is lost.
        let _ = writeln!(console.errors, "cocklesway: {done} of {of} {what} so far");
        let _ = console.errors.flush();
    }
}
