//! Tells on a terminal how far long work has come: one line, written anew once a second and
//! cleared at the end. Where standard error is no terminal nothing is told.

use std::io::{IsTerminal, Write};
use std::sync::mpsc;
use std::time::{Duration, Instant};

/// Between two looks at the clock.
const STEPS: usize = 256;

fn on_terminal() -> bool {
    std::io::stderr().is_terminal()
}

/// Writes the line anew; where nobody can read it there is nothing to be done.
fn tell(text: &str) {
    let _ = write!(std::io::stderr(), "\r\x1b[K{}", text);
}

/// Work that goes in steps.
pub struct Steps {
    what: &'static str,
    all: usize,
    told: Instant,
    terminal: bool,
    any: bool,
}

impl Steps {
    /// Begins; nothing is told in the first second.
    pub fn new(what: &'static str, all: usize) -> Steps {
        Steps { what, all, told: Instant::now(), terminal: on_terminal(), any: false }
    }

    /// `done` steps are done.
    pub fn at(&mut self, done: usize) {
        let look = self.terminal && done.is_multiple_of(STEPS);
        if look && self.told.elapsed() >= Duration::from_secs(1) {
            (self.told, self.any) = (Instant::now(), true);
            tell(&format!("{}: {} of {}", self.what, done, self.all));
        }
    }
}

impl Drop for Steps {
    fn drop(&mut self) {
        if self.any {
            tell("");
        }
    }
}

/// Runs work that cannot be looked into, and tells each second how long it has run.
pub fn during<T: Send>(what: &str, work: impl FnOnce() -> T + Send) -> T {
    if !on_terminal() {
        return work();
    }
    let (done, wait) = mpsc::channel();
    std::thread::scope(|scope| {
        scope.spawn(move || {
            // Whoever waits is there until this arrives.
            let _ = done.send(work());
        });
        let started = Instant::now();
        loop {
            match wait.recv_timeout(Duration::from_secs(1)) {
                Ok(result) => {
                    if started.elapsed() >= Duration::from_secs(1) {
                        tell("");
                    }
                    return result;
                }
                Err(mpsc::RecvTimeoutError::Timeout) => {
                    tell(&format!("{}: {} s", what, started.elapsed().as_secs()))
                }
                Err(mpsc::RecvTimeoutError::Disconnected) => panic!("{} broke off", what),
            }
        }
    })
}
