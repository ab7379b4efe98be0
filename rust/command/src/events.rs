//! The events of the input of `watch`: what a line stands for.
use crate::lines::Line;
use dapohiru_second::job::{Job, EVENT};

/// An event of the input.
#[derive(Clone, Copy)]
pub enum Event<'a> {
    /// The event of a point, with its node.
    Point(usize),
    /// A symbol of a call word or an after word, with its digits as they stand in the line.
    Word(u64, &'a str),
}

/// The event of a job that a line stands for, or why it stands for none.
pub fn event<'a>(job: &Job, line: &'a Line) -> Result<Event<'a>, String> {
    if line.is_long() {
        return Err(format!("{} is longer than any event", line.shown()));
    }
    let text = trimmed(&line.bytes);
    let (digits, is_word) = match text.strip_prefix(b"=") {
        Some(digits) => (digits, true),
        None => (text, false),
    };
    let (Some(value), Ok(digits)) = (decimal(digits), str::from_utf8(digits)) else {
        return Err(format!(
            "{} is neither a node number nor = and a symbol",
            line.shown()
        ));
    };
    if is_word {
        return Ok(Event::Word(value, digits));
    }
    let last = job.nodes.len() as u64 - 1;
    match usize::try_from(value) {
        Ok(node) if value <= last && job.nodes[node].kind == EVENT => Ok(Event::Point(node)),
        _ if value <= last => Err(format!("node {value} is no event node")),
        _ => Err(format!(
            "there is no node {digits}; the nodes are 0 to {last}"
        )),
    }
}

/// A line without the spaces and tabs around it.
fn trimmed(line: &[u8]) -> &[u8] {
    let is_text = |byte: &u8| !matches!(byte, b' ' | b'\t');
    let begin = line.iter().position(is_text).unwrap_or(line.len());
    let end = line
        .iter()
        .rposition(is_text)
        .map_or(begin, |last| last + 1);
    &line[begin..end]
}

/// The number that decimal digits write; one past 2^64-1 counts as 2^64-1.
pub fn decimal(digits: &[u8]) -> Option<u64> {
    let well_formed = !digits.is_empty() && digits.iter().all(u8::is_ascii_digit);
    let value = |value: u64, digit: &u8| {
        value
            .saturating_mul(10)
            .saturating_add(u64::from(digit - b'0'))
    };
    well_formed.then(|| digits.iter().fold(0, value))
}
