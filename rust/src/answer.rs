//! The answers of the calls, as values.
use std::{error, fmt};

/// The number of a refusal: 1 for the file's length, 2 for a buffer, 3 to 10 for what the file holds,
/// 11 and 12 for the plan, 13 for the rule, or for the length of the buffer that a rule is written to,
/// 14 for the symbol, 15 for the record, 16 for the volume file, 17 for rule rows, their numbers or those
/// given with them, 18 for two rows of one pair, 19 for a pair without a row, 20 for an expression or the
/// symbols given with it, 21 for one of more than 16 states, 22 for an edge, the edges or their index, or the
/// numbers or lengths of these, 28 for the price file.
///
/// ```
/// let refusal = dapohiru::plan(b"", &mut [0; 65_536], &mut [0; 512]).unwrap_err();
/// assert_eq!(refusal, dapohiru::Refusal(3));
/// assert_eq!(refusal.to_string(), "refused 3");
/// ```
#[derive(Clone, Copy, Debug, PartialEq, Eq)]
pub struct Refusal(pub u64);

impl fmt::Display for Refusal {
    fn fmt(&self, f: &mut fmt::Formatter<'_>) -> fmt::Result {
        write!(f, "refused {}", self.0)
    }
}

impl error::Error for Refusal {}

/// What planning counts.
#[derive(Clone, Copy, Debug, PartialEq, Eq)]
pub struct Counts {
    /// The event nodes of the job ("points").
    pub points: u64,
    /// The points that the plan has watched.
    pub watched: u64,
    /// The passes over the points, with the last, which changes nothing.
    pub passes: u64,
}

/// What the plan check finds.
#[derive(Clone, Copy, Debug, PartialEq, Eq)]
pub enum Verdict {
    /// On every walk, from every admitted start, the monitor under the plan and the one with all
    /// points watched alarm at the same events.
    Faithful,
    /// There is a walk on which they do not.
    Different,
}

/// What the monitor reports of an event that it takes.
#[derive(Clone, Copy, Debug, PartialEq, Eq)]
pub enum Report {
    /// The state moved to is not final.
    Quiet,
    /// The state moved to is final.
    Alarm,
}
