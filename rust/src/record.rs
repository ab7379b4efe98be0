//! The rule and the record of a running monitor, as values, and the rule of a job.
use crate::{event, numbers, Refusal, Report, RECORD_LEN, RULE_LEN};

/// A rule: states 0 to `states` - 1, symbols 0 to `symbols` - 1. [`rule`] takes it from a job file,
/// [`crate::rows()`] makes it from rows, [`crate::expression()`] from an expression.
#[derive(Clone, Debug, PartialEq, Eq)]
pub struct Rule {
    /// The next state of state q on symbol a, at 16 q + a; other places have no meaning.
    pub table: [u8; RULE_LEN],
    /// How many states there are, 1 to 16.
    pub states: u64,
    /// How many symbols there are, 1 to 16.
    pub symbols: u64,
    /// The set of final states: bit q stands for state q.
    pub finals: u64,
}

impl Rule {
    /// Takes one event on `record`, and says what the monitor reports.
    ///
    /// Refused are 13 for the rule, 14 for the symbol and 15 for the record's state. A refusal leaves
    /// `record` as it was.
    ///
    /// ```
    /// use dapohiru::{Record, Refusal, Report, Rule};
    ///
    /// // one state, which is final: every event is an alarm
    /// let rule = Rule { table: [0; 256], states: 1, symbols: 2, finals: 1 };
    /// let mut record = Record { state: 0, alarms: u64::MAX - 1 };
    /// assert_eq!(rule.event(1, &mut record), Ok(Report::Alarm));
    /// assert_eq!(rule.event(0, &mut record), Ok(Report::Alarm));
    /// assert_eq!(record, Record { state: 0, alarms: u64::MAX });
    /// assert_eq!(rule.event(2, &mut record), Err(Refusal(14)));
    /// ```
    pub fn event(&self, symbol: u64, record: &mut Record) -> Result<Report, Refusal> {
        let mut bytes = record.to_bytes();
        let report = event(
            &self.table,
            self.states,
            self.symbols,
            self.finals,
            symbol,
            &mut bytes,
        )?;
        *record = Record::from_bytes(bytes);
        Ok(report)
    }
}

/// Takes the rule of the job of a job file, for the events of that job.
///
/// Places of the table past the job's states and symbols are zero. `work` is at least 65,536 bytes.
/// [`Rule::event`] never refuses such a rule: what it refuses is a symbol that the job lacks, or a record
/// in a state that it lacks.
///
/// Refused are 1 to 10. Refusals 1 and 2 leave `work` as it was; after any other answer its first 65,536
/// bytes are zero, and the rest is as it was.
///
/// ```
/// use dapohiru::{rule, Record, Refusal, Report, WORK_LEN};
///
/// let mut work = vec![0; WORK_LEN];
/// // two states that take turns on the only symbol; 1 is final
/// let job = b"\
/// J     2     1     1     0
/// R     0     0     1
/// R     1     1     0
/// P     0     1     0     1     0     0
/// ";
/// let rule_of_job = rule(job, &mut work).unwrap();
/// assert_eq!((rule_of_job.states, rule_of_job.symbols, rule_of_job.finals), (2, 1, 0b10));
/// assert_eq!((rule_of_job.table[0], rule_of_job.table[16]), (1, 0));
/// let mut record = Record::default();
/// assert_eq!(rule_of_job.event(0, &mut record), Ok(Report::Alarm));
/// assert_eq!(rule_of_job.event(0, &mut record), Ok(Report::Quiet));
///
/// // a cut line is refused as 4
/// assert_eq!(rule(&job[..9], &mut work), Err(Refusal(4)));
/// ```
#[inline]
pub fn rule(job: &[u8], work: &mut [u8]) -> Result<Rule, Refusal> {
    let mut table = [0; RULE_LEN];
    let number = numbers::rule(job, work, &mut table);
    match number / numbers::ACCEPTED {
        1 => Ok(Rule {
            table,
            states: number >> 32 & 0xffff,
            symbols: number >> 16 & 0xffff,
            finals: number & 0xffff,
        }),
        _ => Err(Refusal(number)),
    }
}

/// A running monitor. The default is state 0 without an alarm.
///
/// ```
/// use dapohiru::Record;
///
/// let record = Record { state: 2, alarms: 258 };
/// let bytes = record.to_bytes();
/// assert_eq!(bytes, [2, 0, 0, 0, 0, 0, 0, 0, 2, 1, 0, 0, 0, 0, 0, 0]);
/// assert_eq!(Record::from_bytes(bytes), record);
/// ```
#[derive(Clone, Copy, Debug, Default, PartialEq, Eq)]
pub struct Record {
    /// The state that the monitor is in.
    pub state: u64,
    /// The alarms so far; the total stays at 2^64-1 once there.
    pub alarms: u64,
}

impl Record {
    /// The sixteen bytes of the C call: the state, then the alarm total, each with its lowest byte first.
    pub fn to_bytes(self) -> [u8; RECORD_LEN] {
        let both = u128::from(self.alarms) << 64 | u128::from(self.state);
        both.to_le_bytes()
    }

    /// The record that has these sixteen bytes.
    pub fn from_bytes(bytes: [u8; RECORD_LEN]) -> Self {
        let both = u128::from_le_bytes(bytes);
        Record {
            state: both as u64,
            alarms: (both >> 64) as u64,
        }
    }
}
