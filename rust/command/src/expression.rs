//! An expression as it was typed, and its letters, each with its place in what was typed.
use crate::encoding;
use crate::fault::Place;
use crate::input;
use crate::shown;
use std::ffi::OsStr;
use std::ops::Range;

/// The bytes of an expression on standard input that are read; names may be long, and so may blanks.
const EXPRESSION_FILE: usize = 65_536;

/// An expression as it was typed.
pub struct Typed {
    /// What it is called in messages.
    pub shown: String,
    pub text: Vec<u8>,
    /// How it was written, where no text is written so.
    pub hint: Option<String>,
}

impl Typed {
    /// The text that an option gives, or for `-` the line on standard input.
    pub fn of(asked: &OsStr) -> Result<Self, String> {
        if asked != "-" {
            return Ok(Typed {
                shown: "the expression".to_string(),
                text: asked.as_encoded_bytes().to_vec(),
                hint: None,
            });
        }
        let file = input::whole(asked, EXPRESSION_FILE)?;
        let line = file.bytes.strip_suffix(b"\n").unwrap_or(&file.bytes);
        Ok(Typed {
            shown: file.shown,
            text: line.to_vec(),
            hint: encoding::hint(&file.bytes),
        })
    }
}

/// An expression as the call is given it.
pub struct Letters<'a> {
    /// What was typed.
    typed: &'a [u8],
    /// Its characters, with a letter for each symbol.
    pub text: Vec<u8>,
    /// Where each of them stands in what was typed.
    places: Vec<Range<usize>>,
    /// Whether names may stand in what was typed.
    pub with_names: bool,
}

impl<'a> Letters<'a> {
    /// What was typed, as it is.
    pub fn plain(typed: &'a [u8]) -> Self {
        let mut letters = Letters::none(typed, false);
        for chunk in typed.utf8_chunks() {
            for letter in chunk.valid().chars() {
                let first = letters.text.len();
                let place = first..first + letter.len_utf8();
                // all bytes of a character stand where it does
                place
                    .clone()
                    .for_each(|at| letters.push(typed[at], place.clone()));
            }
            for &byte in chunk.invalid() {
                let first = letters.text.len();
                letters.push(byte, first..first + 1);
            }
        }
        letters
    }

    /// None yet of what was typed, in which there may be names or not.
    pub fn none(typed: &'a [u8], with_names: bool) -> Self {
        Letters {
            typed,
            text: Vec::new(),
            places: Vec::new(),
            with_names,
        }
    }

    /// One more character, for what stands there in what was typed.
    pub fn push(&mut self, letter: u8, place: Range<usize>) {
        self.text.push(letter);
        self.places.push(place);
    }

    /// How many characters there are; one of several bytes is one.
    pub fn count(&self) -> usize {
        self.places.chunk_by(|one, other| one == other).count()
    }

    /// Where a character stands, or the end of the text, in columns of what was typed.
    pub fn place(&self, at: usize) -> Place {
        let end = self.typed.len();
        place(self.typed, self.places.get(at).unwrap_or(&(end..end + 1)))
    }

    /// What was typed for a character, for a message; past the last it is the end of the text.
    pub fn found(&self, at: usize) -> String {
        match self.places.get(at) {
            Some(place) => format!("`{}`", shown::bytes(&self.typed[place.clone()])),
            None => "the end of the text".to_string(),
        }
    }
}

/// The columns of some bytes of a text: a column for each character, also where it is no UTF-8.
pub fn place(typed: &[u8], bytes: &Range<usize>) -> Place {
    let columns = |end: usize| {
        let chunks = typed[..end.min(typed.len())].utf8_chunks();
        let columns = chunks.map(|chunk| chunk.valid().chars().count() + chunk.invalid().len());
        columns.sum::<usize>()
    };
    let first = columns(bytes.start) + 1;
    Place {
        line: None,
        columns: (first, columns(bytes.end).max(first)),
    }
}
