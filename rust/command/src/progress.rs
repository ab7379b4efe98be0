//! What is under way, on standard error where that is a terminal: a progress bar, or a line.
use crate::terminal;
use std::io::{self, IsTerminal, Write};
use std::sync::Mutex;

/// How many columns the bar has at most, and at least.
const WIDTH: usize = 40;
const LEAST: usize = 4;

/// Takes away what stands in the line from here on.
const REST: &str = "\x1b[K";

/// A bar that threads share.
pub struct Progress {
    /// How many steps are done; nothing where no bar is shown.
    done: Option<Mutex<usize>>,
    all: usize,
}

impl Progress {
    /// A bar of so many steps.
    pub fn begin(all: usize) -> Self {
        let shown = io::stderr().is_terminal();
        let progress = Progress {
            done: shown.then(|| Mutex::new(0)),
            all,
        };
        progress.draw(0);
        progress
    }

    /// One more step is done.
    pub fn step(&self) {
        if let Some(done) = &self.done {
            let mut done = done.lock().unwrap_or_else(|held| held.into_inner());
            *done += 1;
            self.draw(*done);
        }
    }

    fn draw(&self, done: usize) {
        if self.done.is_some() {
            show(&line(done, self.all, terminal::columns(&io::stderr())));
        }
    }

    /// Takes the bar away.
    pub fn end(self) {
        if self.done.is_some() {
            show("");
        }
    }
}

/// Writes a text in the place of the line.
fn show(text: &str) {
    let _ = io::stderr().write_all(format!("\r{text}{REST}").as_bytes());
}

/// The bar and the count, in fewer columns than the terminal has: without the bar where it has no room, and
/// nothing where the count has none.
fn line(done: usize, all: usize, columns: Option<usize>) -> String {
    let count = format!("{done} of {all} jobs");
    let room = columns.map_or(usize::MAX, |columns| columns - 1);
    // two brackets and a space
    match room.saturating_sub(count.len() + 3).min(WIDTH) {
        width if width >= LEAST => {
            let filled = width * done / all.max(1);
            let bar = "#".repeat(filled) + &".".repeat(width - filled);
            format!("[{bar}] {count}")
        }
        _ if count.len() <= room => count,
        _ => String::new(),
    }
}

/// Says what is under way while the work is done.
pub fn during<T>(what: &str, work: impl FnOnce() -> T) -> T {
    let shown = io::stderr().is_terminal();
    if shown {
        let _ = write!(io::stderr(), "{what} ..");
    }
    let done = work();
    if shown {
        show("");
    }
    done
}

#[cfg(test)]
mod tests {
    use super::*;

    #[test]
    fn line_fits_the_terminal() {
        let bar = format!("[{}{}] 3 of 12 jobs", "#".repeat(10), ".".repeat(30));
        assert_eq!(line(3, 12, None), bar);
        assert_eq!(line(3, 12, Some(200)), bar);
        assert_eq!(line(3, 12, Some(24)), "[##......] 3 of 12 jobs");
        assert_eq!(line(3, 12, Some(20)), "[#...] 3 of 12 jobs");
        assert_eq!(line(3, 12, Some(19)), "3 of 12 jobs");
        assert_eq!(line(3, 12, Some(13)), "3 of 12 jobs");
        assert_eq!(line(3, 12, Some(12)), "");
        for columns in 1..100 {
            assert!(line(7, 12, Some(columns)).len() < columns);
        }
    }
}
