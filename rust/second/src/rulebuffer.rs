//! The rule buffer, which the calls for a job's rule, for rows and for an expression write to: its length, and the
//! table in it.
use crate::outcome;
use crate::slip::Slip;

/// The length of a rule: sixteen rows of sixteen next states.
pub const RULE: usize = 256;

/// The answer to a call that makes a rule from a text.
#[derive(Clone, Copy, Debug, PartialEq, Eq)]
pub enum Answer {
    /// With what is added to 2^48.
    Made(u64),
    Refused(u64),
}

/// What such a call leaves in the rule buffer; it is lent no work buffer.
pub type Outcome = outcome::Outcome<Answer>;

/// A rule buffer, with one slip or with none.
#[derive(Clone, Copy)]
pub(crate) struct RuleBuffer {
    pub len: usize,
    pub slip: Option<Slip>,
}

impl RuleBuffer {
    /// The refusal of a rule buffer that is not 256 bytes.
    pub fn refusal(self) -> Option<u64> {
        let len = self.len;
        let refused = match self.slip {
            Some(Slip::LongerRuleAccepted) => len < RULE,
            Some(Slip::ShorterRuleAccepted) => len > RULE,
            Some(Slip::RuleLengthCutTo8Bits) => !len.is_multiple_of(RULE),
            Some(Slip::RuleLengthCutTo16Bits) => len % 65_536 != RULE,
            _ => len != RULE,
        };
        let number = match self.slip {
            Some(Slip::RuleAsBuffer) => 2,
            Some(Slip::RuleAsRecord) => 15,
            _ => 13,
        };
        refused.then_some(number)
    }

    /// "The 256 bytes in row order, cells past S or A zero." A byte that is as it was has nothing.
    pub fn table(
        self,
        states: usize,
        symbols: usize,
        next: impl Fn(usize, usize) -> u64,
    ) -> Vec<Option<u8>> {
        let cell = |place: usize| {
            let (row, column) = match self.slip {
                Some(Slip::ColumnsForTableRows) => (place % 16, place / 16),
                Some(Slip::RowsOfSymbolsOnly) if symbols > 0 => (place / symbols, place % symbols),
                Some(Slip::RowsOfFifteen) => (place / 15, place % 15),
                _ => (place / 16, place % 16),
            };
            let is_past = row >= states || column >= symbols;
            match self.slip {
                Some(Slip::CellsPastLeft) if is_past => None,
                Some(Slip::RowsPastLeft) if row >= states => None,
                Some(Slip::ColumnsPastLeft) if is_past && row < states => None,
                Some(Slip::CellsPastAreOfNoState) if is_past => Some(255),
                Some(Slip::CellsPastAreStates) if is_past => Some(row as u8),
                _ if is_past => Some(0),
                Some(Slip::LastStateNotWritten) if row + 1 == states => None,
                Some(Slip::LastSymbolNotWritten) if column + 1 == symbols => None,
                Some(Slip::NextStatesFromOne) => Some(next(row, column) as u8 + 1),
                _ => Some(next(row, column) as u8),
            }
        };
        (0..RULE).map(cell).collect()
    }

    /// What a call leaves that answers so and writes these bytes.
    pub fn left(self, answer: Answer, bytes: Vec<Option<u8>>) -> Outcome {
        Outcome {
            answer,
            written: self.written(bytes),
            cleared: 0,
        }
    }

    /// These bytes, as far as the buffer holds them, up to the last that is written. Only a slip writes to one of
    /// another length.
    pub fn written(self, mut bytes: Vec<Option<u8>>) -> Vec<Option<u8>> {
        bytes.truncate(self.len);
        let last = bytes.iter().rposition(Option::is_some);
        bytes.truncate(last.map_or(0, |last| last + 1));
        bytes
    }
}
