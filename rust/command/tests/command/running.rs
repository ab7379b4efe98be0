//! The command `watch` under way: events are given one by one, and its lines are read as they come.
use crate::program::{ended, shell, signalled, Done};
use std::io::{BufRead, BufReader};
use std::process::{Child, ChildStdin, Stdio};
use std::sync::mpsc::{self, Receiver, RecvTimeoutError};
use std::thread;
use std::time::Duration;

/// A program under way, with its standard input and the lines that it prints.
pub struct Running {
    pub child: Child,
    pub input: ChildStdin,
    lines: Receiver<String>,
}

impl Running {
    /// Begins to watch without the time.
    pub fn watch(words: &[&str]) -> Self {
        let words = [&["watch", "--no-time"], words].concat();
        let mut child = signalled(&words).stdin(Stdio::piped()).spawn().unwrap();
        let input = child.stdin.take().unwrap();
        let output = BufReader::new(child.stdout.take().unwrap());
        let (sender, lines) = mpsc::channel();
        thread::spawn(move || {
            let mut lines = output.lines();
            lines.try_for_each(|line| sender.send(line.unwrap() + "\n"))
        });
        Running {
            child,
            input,
            lines,
        }
    }

    /// The next line that it prints; one that is held back fails the test.
    pub fn next(&self) -> Result<String, RecvTimeoutError> {
        self.lines.recv_timeout(Duration::from_secs(60))
    }

    /// Ends its input; gives the status, what it has still printed, and standard error.
    pub fn end(self) -> Done {
        drop(self.input);
        let (status, _, wrong) = ended(self.child);
        (status, self.lines.iter().collect(), wrong)
    }

    /// Sends it a signal.
    pub fn signal(&self, signal: &str) {
        let pid = self.child.id().to_string();
        assert_eq!(shell("kill -$2 $3", &[signal, &pid]).0, 0);
    }
}
