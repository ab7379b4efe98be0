//! A rule made from rows as a call (document 02, "Rule rows that offices can edit"): its refusals in order, its answer,
//! and what it leaves in the rule buffer. Every pair of a state and a symbol is looked at by itself, with the rows
//! that name it.
mod pairs;
mod text;

use crate::job::{spell, Line};
use crate::rulebuffer::RuleBuffer;
use crate::slip::Slip;
use pairs::Pairs;

pub use crate::rulebuffer::{Answer, Outcome};

/// The letter of a row.
pub const LETTER: u8 = b'Q';
/// The greatest length of a text: 32 bytes for each of 256 rows.
pub const LONGEST: usize = 8_192;
/// The length of a row: the letter, five fields and the end byte.
pub const ROW: usize = 32;

/// A row: its first and last state, its first and last symbol, and the next state of all pairs of them.
#[derive(Clone, Copy, Debug, PartialEq, Eq)]
pub struct Row {
    pub states: [u64; 2],
    pub symbols: [u64; 2],
    pub next: u64,
}

impl Row {
    /// The row as a line.
    pub fn line(self) -> Line {
        let ([first, last], [low, high]) = (self.states, self.symbols);
        Line::new(LETTER, &[first, last, low, high, self.next])
    }

    /// The row that has these numbers.
    fn of(numbers: [u64; 5]) -> Self {
        let [first, last, low, high, next] = numbers;
        Row {
            states: [first, last],
            symbols: [low, high],
            next,
        }
    }
}

/// The lines of rows.
pub fn lines(rows: &[Row]) -> Vec<Line> {
    rows.iter().map(|row| row.line()).collect()
}

/// The text of rows, without zeros before their numbers.
pub fn text(rows: &[Row]) -> Vec<u8> {
    spell(&lines(rows))
}

/// What is given with the rows: S, A and the set of final states.
#[derive(Clone, Copy, Debug, PartialEq, Eq)]
pub struct Given {
    pub states: u64,
    pub symbols: u64,
    pub finals: u64,
}

/// One call.
#[derive(Clone, Copy)]
pub struct Call<'a> {
    pub text: &'a [u8],
    pub given: Given,
    /// The length of the rule buffer.
    pub rule_len: usize,
}

/// What a call leaves, with one slip or with none. Nothing is added to 2^48 for a rule, but for slips.
pub fn make(call: &Call, slip: Option<Slip>) -> Outcome {
    let making = Making { slip };
    let rule = RuleBuffer {
        len: call.rule_len,
        slip,
    };
    let given = making.given(call.given);
    let (rows, of_rows) = making.rows(call.text, given);
    let of_given = making.given_refusal(call.text, given);
    // pairs there are only where S and A are counts
    let pairs = match of_given {
        None => Pairs::of(slip, given, &rows),
        Some(_) => Pairs::none_of(slip, given, &rows),
    };
    let (twice, none) = (pairs.twice(), pairs.none());
    let tests = making.in_order([rule.refusal(), of_given, of_rows, twice, none], call);
    let (answer, bytes) = match tests.into_iter().flatten().next() {
        None => (Answer::Made(making.added(given, &rows)), pairs.table(rule)),
        Some(number) => {
            let of_table = of_given.or(of_rows).is_none();
            let bytes = match slip {
                Some(Slip::RefusalClearsRule) => vec![Some(0); call.rule_len],
                Some(Slip::WrongLengthWritten) if number == 13 && of_table => pairs.table(rule),
                Some(Slip::TwiceWritten) if number == 18 => pairs.table(rule),
                Some(Slip::NoneWritten) if number == 19 => pairs.table(rule),
                Some(Slip::RowsBeforeFaultWritten) if of_given.is_none() && number == 17 => {
                    pairs.named_cells()
                }
                _ => Vec::new(),
            };
            (Answer::Refused(number), bytes)
        }
    };
    rule.left(answer, bytes)
}

/// The call, with one slip or with none.
#[derive(Clone, Copy)]
struct Making {
    slip: Option<Slip>,
}

impl Making {
    fn slips(self, slip: Slip) -> bool {
        self.slip == Some(slip)
    }

    /// The refusals that apply, in the order in which they are tested: "17 when .., then 18 when .., then 19 when ..",
    /// and before them 13, a lower number.
    fn in_order(self, tests: [Option<u64>; 5], call: &Call) -> [Option<u64>; 5] {
        let [length, given, rows, twice, none] = tests;
        match self.slip {
            Some(Slip::RuleLengthAfterRows) => [given, rows, length, twice, none],
            Some(Slip::RuleLengthLast) => [given, rows, twice, none, length],
            Some(Slip::TwiceBeforeLaterRows) => [length, given, twice, rows, none],
            Some(Slip::NoneBeforeTwice) => [length, given, rows, none, twice],
            Some(Slip::NoRowsBeforeGiven) if call.text.is_empty() => {
                [length, Some(19), given, rows, none]
            }
            _ => [length, given, rows, twice, none],
        }
    }

    /// What is added to 2^48.
    fn added(self, given: Given, rows: &[Row]) -> u64 {
        let Given {
            states,
            symbols,
            finals,
        } = given;
        match self.slip {
            Some(Slip::MadeWithSizes) => (states << 32) + (symbols << 16) + finals,
            Some(Slip::MadeWithRowCount) => rows.len() as u64,
            _ => 0,
        }
    }
}
