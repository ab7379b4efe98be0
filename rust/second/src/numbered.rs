//! Files of numbered lines (document 02, "Journal price of a plan" and "An association's own journal prices"):
//! a line for each place in order, with the place and a number, "built as in the job file".
use crate::job::{spell, Line};
use crate::reading::{self, Reader};

/// A kind of numbered lines.
#[derive(Clone, Copy, Debug)]
pub struct Kind {
    pub letter: u8,
    /// The greatest number.
    pub most: u64,
    /// The refusal of a file that is not exactly these lines.
    pub refusal: u64,
}

/// V lines: a node, and its events a day.
pub const VOLUMES: Kind = Kind {
    letter: b'V',
    most: 999_999,
    refusal: 16,
};
/// B lines: a symbol, and the cents of a thousand events of it.
pub const PRICES: Kind = Kind {
    letter: b'B',
    most: 9_999,
    refusal: 28,
};

impl Kind {
    /// The line of a place.
    pub fn line(self, place: usize, number: u64) -> Line {
        Line::new(self.letter, &[place as u64, number])
    }

    /// The lines of numbers, from place 0 on.
    pub fn lines(self, numbers: &[u64]) -> Vec<Line> {
        let places = numbers.iter().enumerate();
        let line = |(place, &number)| self.line(place, number);
        places.map(line).collect()
    }

    /// The file of numbers, without zeros before them.
    pub fn file(self, numbers: &[u64]) -> Vec<u8> {
        spell(&self.lines(numbers))
    }
}

/// A wrong reading of such a file.
#[derive(Clone, Copy, Debug, PartialEq, Eq)]
pub(crate) enum Slip {
    /// Where a line is due and the file ends it is 3, and where the line has not its form 4.
    FormAs3And4,
    /// The last line may be missing; its number is 0.
    LastLineMissingAccepted,
    /// The last end byte may be missing.
    EndByteMissingAccepted,
    /// Bytes after the last line are accepted.
    BytesAfterAccepted,
    /// Any letter is accepted.
    LetterNotTested,
    /// Lines may stand in any order.
    PlacesNotTested,
    /// A letter of the lower case is accepted.
    SmallLetterAccepted,
    /// CR is accepted before the end byte.
    CrAccepted,
    /// A wrong reading of a field.
    Field(reading::Slip),
    /// One more than the greatest number is accepted.
    MostByOneMore,
    /// The greatest number is refused.
    MostRefused,
    /// The number 0 is refused.
    ZeroRefused,
}

/// The numbered lines of a file, which are taken one after another, with one slip or with none.
pub(crate) struct Lines<'a> {
    pub kind: Kind,
    pub slip: Option<Slip>,
    /// How many lines there are.
    pub count: usize,
    /// What is not taken so far.
    pub rest: &'a [u8],
}

impl<'a> Lines<'a> {
    fn slips(&self, slip: Slip) -> bool {
        self.slip == Some(slip)
    }

    /// The refusal, for a fault that in a job file has this number.
    fn fault(&self, number: u64) -> u64 {
        match self.slip {
            Some(Slip::FormAs3And4) => number,
            _ => self.kind.refusal,
        }
    }

    /// Takes the line of this place, and gives its number.
    pub fn number(&mut self, place: usize) -> Result<u64, u64> {
        let is_missing = place + 1 == self.count && self.rest.is_empty();
        if is_missing && self.slips(Slip::LastLineMissingAccepted) {
            return Ok(0);
        }
        let line = self.take()?;
        self.number_in(line, place)
    }

    /// Takes the line due, without its end byte.
    pub fn take(&mut self) -> Result<&'a [u8], u64> {
        if self.rest.is_empty() {
            return Err(self.fault(3));
        }
        let mut parts = self.rest.splitn(2, |&byte| byte == b'\n');
        let line = parts.next().expect("there is a first part");
        self.rest = match parts.next() {
            Some(after) => after,
            None if self.slips(Slip::EndByteMissingAccepted) => &[],
            None => return Err(self.fault(4)),
        };
        Ok(match self.slip {
            Some(Slip::CrAccepted) => line.strip_suffix(b"\r").unwrap_or(line),
            _ => line,
        })
    }

    /// Whether a line may begin with this letter.
    fn is_letter(&self, letter: u8) -> bool {
        let due = self.kind.letter;
        match self.slip {
            Some(Slip::LetterNotTested) => true,
            Some(Slip::SmallLetterAccepted) => letter.to_ascii_uppercase() == due,
            _ => letter == due,
        }
    }

    /// The numbers in a line, in so many fields.
    pub fn numbers_in(&self, line: &[u8], fields: usize) -> Result<Vec<u64>, u64> {
        let malformed = self.fault(4);
        let (&letter, columns) = line.split_first().ok_or(malformed)?;
        if columns.len() != 6 * fields || !self.is_letter(letter) {
            return Err(malformed);
        }
        let slip = match self.slip {
            Some(Slip::Field(slip)) => Some(slip),
            _ => None,
        };
        let number = |field| Reader { slip }.number(field).ok_or(malformed);
        columns.chunks(6).map(number).collect()
    }

    /// The number in a line, which is the one of this place.
    fn number_in(&self, line: &[u8], place: usize) -> Result<u64, u64> {
        let numbers = self.numbers_in(line, 2)?;
        let (named, number) = (numbers[0], numbers[1]);
        let is_in_place = named == place as u64 || self.slips(Slip::PlacesNotTested);
        if is_in_place && self.is_within(number) {
            Ok(number)
        } else {
            Err(self.kind.refusal)
        }
    }

    /// Whether a number is within its limits.
    fn is_within(&self, number: u64) -> bool {
        match self.slip {
            Some(Slip::MostByOneMore) => number <= self.kind.most + 1,
            Some(Slip::MostRefused) => number < self.kind.most,
            Some(Slip::ZeroRefused) if number == 0 => false,
            _ => number <= self.kind.most,
        }
    }

    /// Asks that nothing follows the last line.
    pub fn end(&self) -> Result<(), u64> {
        match self.rest {
            [] => Ok(()),
            _ if self.slips(Slip::BytesAfterAccepted) => Ok(()),
            _ => Err(self.kind.refusal),
        }
    }
}
