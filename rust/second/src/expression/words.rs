//! The language of an expression, by its definition: a word is parted in every way.
use super::text::{Times, Tree};

/// Whether these events form a word of an expression.
pub(super) fn is_word(tree: &Tree, events: &[u64]) -> bool {
    match tree {
        Tree::Letter(letter) => events == [letter.symbol],
        Tree::Choice(parts) => parts.iter().any(|part| is_word(part, events)),
        Tree::Following(parts) => follow(parts, events),
        Tree::Repeated(of, times) => match times {
            Times::Any => repeat(of, events),
            Times::AtMostOnce => events.is_empty() || is_word(of, events),
            Times::AtLeastOnce => is_word(of, events) || repeat(of, events) && !events.is_empty(),
        },
    }
}

/// Whether these events are words of each part, one after the other.
fn follow(parts: &[Tree], events: &[u64]) -> bool {
    let Some((first, rest)) = parts.split_first() else {
        return events.is_empty();
    };
    (0..=events.len()).any(|cut| is_word(first, &events[..cut]) && follow(rest, &events[cut..]))
}

/// Whether these events are any number of words, one after the other; empty ones need not be tried.
fn repeat(of: &Tree, events: &[u64]) -> bool {
    events.is_empty()
        || (1..=events.len()).any(|cut| is_word(of, &events[..cut]) && repeat(of, &events[cut..]))
}
