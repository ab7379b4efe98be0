//! Expressions with names of symbols, as letters.
use crate::expression::{place, Letters};
use crate::fault::Fault;
use crate::names::Names;
use crate::shown;
use std::ops::Range;

/// The characters of an expression that are no letters.
const SIGNS: &[u8] = b"*|()";

/// Why an expression with names has no letters: what is wrong, and where.
pub type Unread = (&'static str, Fault);

/// An expression with names, and the symbols that there are.
struct Named<'a> {
    typed: &'a [u8],
    names: &'a Names,
    symbols: usize,
}

/// One way to read what stands at a place.
struct Reading {
    /// The character that the call is given for it.
    letter: u8,
    /// How many bytes it takes.
    len: usize,
    /// What it is, for a message.
    is: String,
}

/// The letters of an expression with names of symbols and letters that stand alone, for so many symbols. Blanks may
/// stand between them. What may be read in two ways is not read.
pub fn letters<'a>(typed: &'a [u8], names: &Names, symbols: usize) -> Result<Letters<'a>, Unread> {
    let named = Named {
        typed,
        names,
        symbols,
    };
    let mut letters = Letters::none(typed, true);
    let mut at = 0;
    while at < typed.len() {
        if typed[at] == b' ' {
            at += 1;
            continue;
        }
        let readings = named.readings(at);
        let [Reading { letter, len, .. }] = readings[..] else {
            return Err(named.unread(at, &readings));
        };
        letters.push(letter, at..at + len);
        at += len;
    }
    Ok(letters)
}

/// Whether a byte stands apart from a word beside it.
fn is_apart(byte: u8) -> bool {
    byte == b' ' || SIGNS.contains(&byte)
}

/// How many bytes a name takes of a text that begins with it; a run of blanks is one blank.
fn len_in(text: &[u8], name: &str) -> Option<usize> {
    let mut rest = text;
    let words = name.split(' ').filter(|word| !word.is_empty());
    for (place, word) in words.enumerate() {
        let blanks = rest.iter().take_while(|&&byte| byte == b' ').count();
        if (place > 0) != (blanks > 0) {
            return None;
        }
        rest = rest[blanks..].strip_prefix(word.as_bytes())?;
    }
    Some(text.len() - rest.len())
}

impl Named<'_> {
    /// The letters of the symbols, with their numbers.
    fn alphabet(&self) -> impl Iterator<Item = (u8, usize)> {
        (b'a'..).zip(0..self.symbols)
    }

    /// The bytes from a place on that no blank and no sign takes apart.
    fn word(&self, at: usize) -> Range<usize> {
        let len = self.typed[at..].iter().position(|&byte| is_apart(byte));
        at..len.map_or(self.typed.len(), |len| at + len)
    }

    /// The ways to read what stands at a place: as a sign, a letter or a name. A name and a letter of one symbol are
    /// one way.
    fn readings(&self, at: usize) -> Vec<Reading> {
        let (typed, rest) = (self.typed, &self.typed[at..]);
        let mut readings = Vec::new();
        if SIGNS.contains(&rest[0]) {
            readings.push(Reading {
                letter: rest[0],
                len: 1,
                is: format!("the sign `{}`", char::from(rest[0])),
            });
        }
        let is_alone = self.word(at).len() == 1;
        for (letter, symbol) in self.alphabet() {
            let shown = char::from(letter);
            let is_letter = is_alone && rest[0] == letter;
            if is_letter {
                let is = format!(
                    "{shown}, the letter of symbol {}",
                    self.names.symbol(symbol)
                );
                readings.push(Reading { letter, len: 1, is });
            }
            let name = self.names.name_of_symbol(symbol);
            let Some((name, len)) = name.and_then(|name| Some((name, len_in(rest, name)?))) else {
                continue;
            };
            let end = at + len;
            let ends = end == typed.len() || is_apart(typed[end]) || is_apart(typed[end - 1]);
            if ends && !(is_letter && len == 1) {
                let name = shown::text(name);
                let is = format!("`{name}`, the name of symbol {symbol} ({shown})");
                readings.push(Reading { letter, len, is });
            }
        }
        readings
    }

    /// Why what stands at a place is not read: there is no way to read it, or there are several.
    fn unread(&self, at: usize, readings: &[Reading]) -> Unread {
        let longest = readings.iter().map(|reading| reading.len).max();
        let bytes = longest.map_or(self.word(at), |len| at..at + len);
        let (meaning, expected) = match readings {
            [] => (
                "a word of the expression is no symbol",
                self.known(&self.typed[bytes.clone()]),
            ),
            _ => {
                let ways: Vec<_> = readings.iter().map(|reading| reading.is.as_str()).collect();
                let ways = ways.join(", and ");
                let advice = match SIGNS.contains(&self.typed[at]) {
                    true => "give another name; where the symbol is meant, its letter will do",
                    false => "take the letter instead of the name or the name instead of the letter, or give another name",
                };
                let expected =
                    format!("what can be read in one way alone; this is {ways}: {advice}");
                ("a word of the expression can be read in two ways", expected)
            }
        };
        let fault = Fault {
            number: 20,
            place: Some(place(self.typed, &bytes)),
            found: format!("`{}`", shown::bytes(&self.typed[bytes])),
            expected,
        };
        (meaning, fault)
    }

    /// The symbols that could stand where this word does.
    fn known(&self, word: &[u8]) -> String {
        let symbol = |(letter, symbol): (u8, usize)| {
            let letter = char::from(letter);
            match self.names.name_of_symbol(symbol) {
                Some(name) => format!("{} ({letter})", shown::text(name)),
                None => letter.to_string(),
            }
        };
        let known: Vec<_> = self.alphabet().map(symbol).collect();
        let is_letter = |byte: &u8| self.alphabet().any(|(letter, _)| letter == *byte);
        let apart = match word.iter().all(is_letter) {
            true => "; letters stand apart where there are names, as in `a b`",
            false => "",
        };
        format!(
            "a symbol by its name or its letter: {}{apart}",
            known.join(", ")
        )
    }
}
