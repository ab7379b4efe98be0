//! Plan files: one line of digits, a digit for each node, 1 at a watched point and 0 at all else.
//!
//! ```
//! use dapohiru::planfile;
//!
//! assert_eq!(planfile::read(b"011\n"), Ok(vec![0, 1, 1]));
//! assert_eq!(planfile::write(&[0, 1, 1]), "011\n");
//!
//! let error = planfile::read(b"01x\n").unwrap_err();
//! assert_eq!((error.column, error.found), (3, b'x'));
//! assert_eq!(
//!     error.to_string(),
//!     "line 1, column 3: found `x`\n  expected: one line of 0 and 1, a digit for each node"
//! );
//! ```
use std::{error, fmt};

/// A plan file that is no line of digits.
#[derive(Clone, Copy, Debug, PartialEq, Eq)]
pub struct PlanFileError {
    /// Where the first byte stands that is no digit, counted from 1, in the first line.
    pub column: usize,
    /// That byte; byte 10 where the line ends and something follows.
    pub found: u8,
}

impl PlanFileError {
    /// What is expected there, in words.
    pub fn expected(self) -> &'static str {
        match self.found {
            b'\n' => "one line of 0 and 1, a digit for each node and nothing after it",
            _ => "one line of 0 and 1, a digit for each node",
        }
    }
}

impl fmt::Display for PlanFileError {
    fn fmt(&self, f: &mut fmt::Formatter<'_>) -> fmt::Result {
        write!(f, "line 1, column {}: found ", self.column)?;
        match self.found {
            b'\n' => f.write_str("the end of the line")?,
            byte => write!(f, "`{}`", byte.escape_ascii())?,
        }
        write!(f, "\n  expected: {}", self.expected())
    }
}

impl error::Error for PlanFileError {}

/// The plan of a plan file: one byte for each digit. The line's end may be missing. What a digit above 1
/// means, and another count of digits than the job has nodes, is for the plan check to say (12 and 11).
pub fn read(file: &[u8]) -> Result<Vec<u8>, PlanFileError> {
    let line = file.strip_suffix(b"\n").unwrap_or(file);
    let digits = (1..).zip(line).map(|(column, &byte)| match byte {
        b'0'..=b'9' => Ok(byte - b'0'),
        found => Err(PlanFileError { column, found }),
    });
    digits.collect()
}

/// The plan file of a plan. A byte above 9, which no plan has, is written as 9, which no plan has either.
pub fn write(plan: &[u8]) -> String {
    let digits = plan.iter().map(|&byte| char::from(b'0' + byte.min(9)));
    digits.chain(['\n']).collect()
}
