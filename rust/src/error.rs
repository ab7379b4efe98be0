//! Why a job, a start, a point or a report is turned down.
use crate::Refusal;
use dapohiru_second::job::members;
use std::{error, fmt};

/// Why there is no [`crate::Job`] for a file, or for a file and a plan.
#[derive(Clone, Copy, Debug, PartialEq, Eq)]
pub enum JobError {
    /// The proved calls refuse the file (1, 3 to 10), or the plan that was given (11, 12).
    Refused(Refusal),
    /// The plan that was given is different: on some walk it has other alarms than all points watched.
    Different,
    /// The proved calls accept the file, and the second reader refuses it by this number.
    SecondReaderRefuses(u64),
    /// The second reader reads another job than the proved calls: these parts of it differ.
    SecondReaderDiffers(&'static str),
}

impl fmt::Display for JobError {
    fn fmt(&self, f: &mut fmt::Formatter<'_>) -> fmt::Result {
        match self {
            JobError::Refused(refusal) => refusal.fmt(f),
            JobError::Different => f.write_str(
                "the plan is different: on some walk it has other alarms than all points watched",
            ),
            JobError::SecondReaderRefuses(number) => write!(
                f,
                "the library accepts the file, and the second reader refuses it as {number}"
            ),
            JobError::SecondReaderDiffers(part) => write!(
                f,
                "the library and the second reader differ in the {part} of the job"
            ),
        }
    }
}

impl error::Error for JobError {}

impl From<Refusal> for JobError {
    fn from(refusal: Refusal) -> Self {
        JobError::Refused(refusal)
    }
}

/// A node that is no point of its job.
#[derive(Clone, Copy, Debug, PartialEq, Eq)]
pub struct NoPoint {
    /// The number that was given for a node.
    pub node: usize,
    /// How many nodes the job has.
    pub nodes: usize,
}

impl fmt::Display for NoPoint {
    fn fmt(&self, f: &mut fmt::Formatter<'_>) -> fmt::Result {
        let NoPoint { node, nodes } = self;
        match node < nodes {
            true => write!(f, "node {node} is no event node"),
            false => write!(f, "there is no node {node}; the job has {nodes}"),
        }
    }
}

impl error::Error for NoPoint {}

/// A start that the job does not admit.
#[derive(Clone, Copy, Debug, PartialEq, Eq)]
pub struct NotAdmitted {
    /// The node that was given for an entry.
    pub entry: usize,
    /// The state that was asked for.
    pub state: u64,
    /// The set of states that are admitted there, bit q for state q; none at a node that is no entry.
    pub admitted: u64,
}

impl fmt::Display for NotAdmitted {
    fn fmt(&self, f: &mut fmt::Formatter<'_>) -> fmt::Result {
        let NotAdmitted {
            entry,
            state,
            admitted,
        } = self;
        if *admitted == 0 {
            return write!(f, "node {entry} is no entry");
        }
        write!(f, "entry {entry} does not admit state {state}; it admits")?;
        members(*admitted).try_for_each(|state| write!(f, " {state}"))
    }
}

impl error::Error for NotAdmitted {}

/// Why an event of a point is not taken.
#[derive(Clone, Copy, Debug, PartialEq, Eq)]
pub enum ReportError {
    /// The node is no point.
    NoPoint(NoPoint),
    /// The event step refuses the record, as 15: the job lacks its state.
    Refused(Refusal),
}

impl fmt::Display for ReportError {
    fn fmt(&self, f: &mut fmt::Formatter<'_>) -> fmt::Result {
        match self {
            ReportError::NoPoint(why) => why.fmt(f),
            ReportError::Refused(refusal) => refusal.fmt(f),
        }
    }
}

impl error::Error for ReportError {}

impl From<NoPoint> for ReportError {
    fn from(why: NoPoint) -> Self {
        ReportError::NoPoint(why)
    }
}

impl From<Refusal> for ReportError {
    fn from(refusal: Refusal) -> Self {
        ReportError::Refused(refusal)
    }
}
