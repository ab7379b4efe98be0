//! Expressions, read a second time for their first fault and what is expected there.
use crate::expression::Letters;
use crate::fault::Fault;
use crate::sizes::Size;
use dapohiru::{Refusal, EXPRESSION_LEN};

/// The first fault of an expression with the number of symbols given, which the call refuses.
pub fn first_fault(letters: &Letters, symbols: &Size, refusal: Refusal) -> Option<Fault> {
    let fault = symbols.fault(20).or_else(|| {
        let reader = Reader::new(letters, symbols.within()?);
        reader.fault()
    });
    match fault {
        Some(fault) => Some(with_length(fault, letters)),
        None => too_long(letters).or_else(|| (refusal == Refusal(21)).then(too_many_states)),
    }
}

/// How long an expression is, where it is too long.
fn length(letters: &Letters) -> Option<String> {
    let count = letters.count();
    let counted = if letters.with_names {
        ", with a letter for each name"
    } else {
        ""
    };
    (count > EXPRESSION_LEN).then(|| format!("{count} characters{counted}"))
}

/// A fault, and that the expression is too long besides, where it is.
fn with_length(mut fault: Fault, letters: &Letters) -> Fault {
    if let Some(length) = length(letters) {
        fault.expected +=
            &format!("; besides, the text has {length}, and at most {EXPRESSION_LEN} are accepted");
    }
    fault
}

/// The fault of an expression that is too long.
fn too_long(letters: &Letters) -> Option<Fault> {
    Some(Fault {
        number: 20,
        place: None,
        found: length(letters)?,
        expected: format!("at most {EXPRESSION_LEN}"),
    })
}

/// What is said of an expression that makes too many states.
fn too_many_states() -> Fault {
    Fault {
        number: 21,
        place: None,
        found: "an expression whose rule has more than 16 states".to_string(),
        expected: "16 at most: one for the start, and one for each set of letters of the text that the last event may \
                   stand for; many letters make many, and so do parts that may begin anew before they end, as in \
                   (a|b)*a(a|b)(a|b)(a|b)"
            .to_string(),
    }
}

/// An expression read from left to right.
struct Reader<'a> {
    letters: &'a Letters<'a>,
    symbols: usize,
    /// The parentheses that are open.
    open: Vec<usize>,
    /// Whether a letter or a parenthesis must come: at the start, after a bar and after an opening parenthesis.
    is_due: bool,
}

impl<'a> Reader<'a> {
    fn new(letters: &'a Letters<'a>, symbols: usize) -> Self {
        Reader {
            letters,
            symbols,
            open: Vec::new(),
            is_due: true,
        }
    }

    /// The first fault, if there is one.
    fn fault(mut self) -> Option<Fault> {
        let text = &self.letters.text;
        let wrong = (0..text.len()).find(|&at| !self.takes(at));
        let is_whole = !self.is_due && self.open.is_empty();
        let at = wrong.or((!is_whole).then_some(text.len()))?;
        let (place, found) = match text.is_empty() {
            true => (None, "an empty text".to_string()),
            false => (Some(self.letters.place(at)), self.letters.found(at)),
        };
        Some(Fault {
            number: 20,
            place,
            found,
            expected: self.expected(at),
        })
    }

    /// Goes past a character, if it may stand here.
    fn takes(&mut self, at: usize) -> bool {
        match self.letters.text[at] {
            letter @ b'a'..=b'p' if usize::from(letter - b'a') < self.symbols => {
                self.is_due = false;
            }
            b'(' => {
                self.open.push(at);
                self.is_due = true;
            }
            _ if self.is_due => return false,
            b'*' => {}
            b'|' => self.is_due = true,
            b')' => return self.open.pop().is_some(),
            _ => return false,
        }
        true
    }

    /// What is expected at a place where something else stands, or the text ends.
    fn expected(&self, at: usize) -> String {
        let text = &self.letters.text;
        let column = |at: usize| self.letters.place(at).columns.0;
        let before = at.checked_sub(1).map(|at| (text[at], column(at)));
        let (due, choices) = (self.due(), "which stands between two choices");
        match (text.get(at), before, self.open.last()) {
            (Some(b'a'..=b'p'), ..) => {
                let count = match self.symbols {
                    1 => "there is 1 symbol".to_string(),
                    symbols => format!("there are {symbols} symbols"),
                };
                let names = match self.is_word(at) {
                    true => ", and names of symbols want --names",
                    false => "",
                };
                format!("{due}: {count}{names}")
            }
            (Some(b'q'..=b'z'), ..) => format!("{due}: names of symbols want --names"),
            (Some(b'A'..=b'Z'), ..) => format!("{due}: letters are small"),
            (Some(b' '), ..) => format!("{due}: blanks stand only beside names, with --names"),
            (Some(b'*'), ..) => format!("{due} before `*`, which repeats it"),
            (Some(b'|'), ..) => format!("{due} before `|`, {choices}"),
            (Some(b')'), _, None) => format!("{due}: no parenthesis is open here"),
            (Some(b')'), Some((b'(', column)), _) => {
                format!("{due}: the parentheses from column {column} on hold nothing")
            }
            (Some(b')') | None, Some((b'|', column)), _) => {
                format!("{due} after `|` in column {column}, {choices}")
            }
            (None, _, Some(&open)) => {
                format!(
                    "{due}: the parenthesis of column {} is not closed",
                    column(open)
                )
            }
            _ => due,
        }
    }

    /// Whether the letters from the first fault on look like a word: several of them are past the symbols.
    fn is_word(&self, at: usize) -> bool {
        let run = self.letters.text[at..].iter();
        let run = run.take_while(|byte| byte.is_ascii_lowercase());
        let past = run.filter(|&letter| usize::from(letter - b'a') >= self.symbols);
        past.count() > 1
    }

    /// What may come here.
    fn due(&self) -> String {
        let letter = self.letter();
        match (self.is_due, self.open.is_empty()) {
            (true, _) => format!("{letter}, or `(`"),
            (false, true) => format!("{letter}, `(`, `*`, `|` or the end"),
            (false, false) => format!("{letter}, `(`, `*`, `|` or `)`"),
        }
    }

    /// What stands for a symbol.
    fn letter(&self) -> String {
        match (self.letters.with_names, self.symbols) {
            (true, _) => "a symbol".to_string(),
            (false, 1) => "the letter a".to_string(),
            (false, symbols) => {
                let last = char::from(b'a' + symbols as u8 - 1);
                format!("a letter, a to {last}")
            }
        }
    }
}

#[cfg(test)]
mod tests {
    use super::*;

    /// Whether the reader finds a fault.
    fn has_fault(text: &[u8], symbols: usize) -> bool {
        let letters = Letters::plain(text);
        Reader::new(&letters, symbols).fault().is_some()
    }

    #[test]
    fn reader_finds_a_fault_exactly_where_the_call_refuses_with_20() {
        let mut texts = vec![Vec::new()];
        let mut counts = [0; 2];
        for _ in 0..=5 {
            for text in &texts {
                let call = dapohiru::expression(text, 2);
                let is_refused = call == Err(Refusal(20));
                assert_eq!(has_fault(text, 2), is_refused, "{}", text.escape_ascii());
                counts[usize::from(is_refused)] += 1;
            }
            let longer = |text: &Vec<u8>| {
                let more = b"abc*|() x\xff".iter();
                let longer = more.map(|&byte| [&text[..], &[byte]].concat());
                longer.collect::<Vec<_>>()
            };
            texts = texts.iter().flat_map(longer).collect();
        }
        println!("accepted and refused: {counts:?}");
        assert!(counts.iter().all(|&count| count > 100), "{counts:?}");
    }
}
