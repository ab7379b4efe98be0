//! The lines of standard input, which a stop ends too.
use crate::shown;
use crate::stop::{self, Wait};
use std::fs::File;
use std::io::{self, BufRead, BufReader, Read};
use std::os::fd::AsFd;
use std::time::Duration;

/// The longest line that is kept whole; no event is as long.
pub const LONGEST: usize = 64;

/// A line without its end.
#[derive(Debug, Default)]
pub struct Line {
    /// Its bytes; of a long line only the first, more than the longest event has.
    pub bytes: Vec<u8>,
    /// Its last byte, also of a long line.
    pub last: Option<u8>,
}

impl Line {
    /// The line in quotes, of a long one the beginning.
    pub fn shown(&self) -> String {
        let rest = if self.is_long() { ".." } else { "" };
        format!("`{}{rest}`", shown::bytes(&self.bytes))
    }

    /// Whether it is longer than any event.
    pub fn is_long(&self) -> bool {
        self.bytes.len() > LONGEST
    }
}

/// What comes next in the input.
#[derive(Debug, PartialEq, Eq)]
pub enum Next {
    /// A line.
    Line,
    /// Bytes without the end of a line, and then the end of the input.
    Unended,
    /// The end of the input, or a stop.
    End,
}

/// Standard input, which is waited for together with a stop.
struct Input {
    file: File,
    wait: Wait,
}

impl Read for Input {
    /// A stop is the end.
    fn read(&mut self, bytes: &mut [u8]) -> io::Result<usize> {
        match self.wait.for_input(self.file.as_fd())? {
            true => self.file.read(bytes),
            false => Ok(0),
        }
    }
}

/// The lines of standard input.
pub struct Lines(BufReader<Input>);

impl Lines {
    /// Standard input from here on; stops are noted.
    pub fn of_input() -> io::Result<Self> {
        let file = File::from(io::stdin().as_fd().try_clone_to_owned()?);
        let wait = Wait::listen()?;
        Ok(Lines(BufReader::new(Input { file, wait })))
    }

    /// Whether there is a line, or something to read or a stop comes within this time.
    pub fn comes_within(&self, time: Duration) -> bool {
        let Input { file, wait } = self.0.get_ref();
        // what cannot be waited for is told when it is read
        self.0.buffer().contains(&b'\n') || wait.ends_within(file.as_fd(), time).unwrap_or(true)
    }

    /// Reads the next line without its end.
    pub fn next(&mut self, line: &mut Line) -> io::Result<Next> {
        if stop::asked() {
            return Ok(Next::End);
        }
        match next(&mut self.0, line)? {
            // the rest of the line has not come yet
            Next::Unended if stop::asked() => Ok(Next::End),
            next => Ok(next),
        }
    }
}

/// Reads the next line without its end.
fn next(input: &mut impl BufRead, line: &mut Line) -> io::Result<Next> {
    line.bytes.clear();
    line.last = None;
    let mut any = false;
    loop {
        let bytes = match input.fill_buf() {
            Err(why) if why.kind() == io::ErrorKind::Interrupted => continue,
            bytes => bytes?,
        };
        if bytes.is_empty() {
            return Ok(if any { Next::Unended } else { Next::End });
        }
        any = true;
        let end = bytes.iter().position(|&byte| byte == b'\n');
        let len = end.unwrap_or(bytes.len());
        let room = LONGEST + 1 - line.bytes.len();
        line.bytes.extend(&bytes[..len.min(room)]);
        line.last = bytes[..len].last().copied().or(line.last);
        input.consume(len + usize::from(end.is_some()));
        if end.is_some() {
            return Ok(Next::Line);
        }
    }
}

#[cfg(test)]
mod tests {
    use super::*;

    #[test]
    fn lines_are_told_from_bytes_without_an_end() {
        for capacity in [1, 2, 3, 100] {
            let mut input = BufReader::with_capacity(capacity, &b"0\n\n12\n2"[..]);
            let mut line = Line::default();
            for (wanted, bytes) in [
                (Next::Line, &b"0"[..]),
                (Next::Line, b""),
                (Next::Line, b"12"),
                (Next::Unended, b"2"),
                (Next::End, b""),
            ] {
                assert_eq!(next(&mut input, &mut line).unwrap(), wanted);
                assert_eq!(line.bytes, bytes);
                assert_eq!(line.last.as_ref(), bytes.last());
            }
        }
    }

    #[test]
    fn long_line_is_kept_in_part() {
        let text = "0".repeat(1_000) + "x\n1\n";
        let mut input = BufReader::with_capacity(7, text.as_bytes());
        let mut line = Line::default();
        assert_eq!(next(&mut input, &mut line).unwrap(), Next::Line);
        let begin = "0".repeat(LONGEST + 1);
        assert_eq!((&line.bytes[..], line.last), (begin.as_bytes(), Some(b'x')));
        assert_eq!(line.shown(), format!("`{begin}..`"));
        assert_eq!(next(&mut input, &mut line).unwrap(), Next::Line);
        assert_eq!((&line.bytes[..], line.last), (&b"1"[..], Some(b'1')));
        assert_eq!(line.shown(), "`1`");
    }
}
