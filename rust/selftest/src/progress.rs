//! A line on a terminal that says how far it is.
use crate::tally::Tally;
use std::io::{self, IsTerminal, Write};
use std::time::{Duration, Instant};

/// The time between two forms of the line.
const EVERY: Duration = Duration::from_millis(100);

/// The line; nothing is shown where standard error is no terminal.
pub struct Progress {
    shown: bool,
    begun: Instant,
    last: Instant,
    terminal: bool,
}

impl Progress {
    /// A line that is not shown yet.
    pub fn new() -> Self {
        let now = Instant::now();
        Progress {
            shown: false,
            begun: now,
            last: now,
            terminal: io::stderr().is_terminal(),
        }
    }

    /// The seconds since the beginning.
    fn seconds(&self) -> f64 {
        self.begun.elapsed().as_secs_f64()
    }

    /// Takes the line away, and says what is made, how many calls that took in which time, and what they
    /// came to.
    pub fn end(self, out: &mut impl Write, made: &str, tally: &Tally) -> io::Result<()> {
        let (calls, seconds) = (tally.calls(), self.seconds());
        drop(self);
        writeln!(out, "{made}, {calls} calls, {seconds:.1} s")?;
        write!(out, "{tally}")
    }

    /// Shows the line, if it is time to.
    pub fn show(&mut self, done: u64, all: u64, what: &str) {
        if !self.terminal || self.last.elapsed() < EVERY {
            return;
        }
        self.last = Instant::now();
        self.shown = true;
        let share = 100.0 * done as f64 / all.max(1) as f64;
        let mut out = io::stderr().lock();
        // a line that cannot be shown is no matter
        let _ = write!(
            out,
            "\r{done} of {all} {what}, {share:.0} %, {:.0} s\x1b[K",
            self.seconds()
        );
        let _ = out.flush();
    }
}

impl Drop for Progress {
    /// Takes the line away.
    fn drop(&mut self) {
        if self.shown {
            let _ = write!(io::stderr(), "\r\x1b[K");
        }
    }
}
