//! Planning, listing, the plan check, the journal price of a plan, the rule of a job, rules from rows and
//! from expressions, the event step of the monitor, and edges with the index of what leads to each node, for
//! Rust: safe forms of the C calls in the proved static library.
//!
//! A job file holds a rule over events and the flow graph of a procedure. [`Job`] is what a service makes of
//! it: the plan, the rule, the points and the entries, with functions that take the procedure's events.
//!
//! Below it are the proved calls. [`plan`] says which points of the graph must stay watched, [`list`] what
//! was found at each, [`check`] whether somebody else's plan is faithful, [`price()`] what the journal lines of
//! a plan's watched points cost a day, [`price_by`] what they cost by an association's own prices; [`rule()`]
//! takes the rule out of the file, [`rows()`] makes one from the rows of an office, [`expression()`] from an
//! officer's expression, and [`event`] (or [`Rule::event`]) takes one event on the record of a running
//! monitor. [`Arrivals`] holds the edges of a graph that is edited, and beside them the nodes that lead to each.
//! A refusal carries its number, 1 to 22 or 28, as documents 01 and 02 list it. The functions of
//! [`numbers`] are the C calls as they are; those of [`planfile`] read and write plans as files.
//!
//! The calls keep nothing between them and share nothing: any number of threads may be in them, each
//! with buffers and a record of its own. No function here panics. [`Job::new`], [`Job::with_plan`],
//! [`Arrivals::new`], a clone of a [`Job`] or of [`Arrivals`], [`planfile::read`] and [`planfile::write`]
//! allocate; nothing else does.
//!
//! # One job from plan to alarm
//! The procedure PAIR seals a batch, seals it again and writes to it; a write to a sealed batch is an
//! alarm. Either seal may go unwatched, not both.
//!
//! ```
//! use dapohiru::{check, plan, rule, Counts, Job, Record, Report, Verdict, PLAN_LEN, WORK_LEN};
//!
//! # fn main() -> Result<(), Box<dyn std::error::Error>> {
//! let file = b"\
//! J     3     3     3     2
//! R     0     0     1     0     0
//! R     1     0     1     0     2
//! R     2     1     1     0     2
//! P     0     1     0     1     0     0
//! P     1     1     0     0     0     0
//! P     2     1     2     0     1     0
//! F     0     1
//! F     1     2
//! ";
//!
//! // A service: the walk seal, seal, write of a batch that comes in at node 0 in state 0.
//! let job = Job::new(file)?;
//! let mut record = job.start(0, 0)?;
//! let mut reports = Vec::new();
//! for node in [0, 1, 2] {
//!     reports.push(job.report(node, &mut record)?);
//! }
//! assert_eq!(reports, [Report::Quiet, Report::Quiet, Report::Alarm]);
//!
//! // The calls by themselves. The plan: one byte for each node, here 0 to 2.
//! let mut work = vec![0; WORK_LEN];
//! let mut bytes = [0; PLAN_LEN];
//! let counts = plan(file, &mut work, &mut bytes)?;
//! assert_eq!(counts, Counts { points: 3, watched: 2, passes: 2 });
//! let plan = &bytes[..3];
//! assert_eq!(plan, [0, 1, 1]);
//!
//! // Plans of one's own: without the second seal, and without both.
//! assert_eq!(check(file, &[1, 0, 1], &mut work)?, Verdict::Faithful);
//! assert_eq!(check(file, &[0, 0, 1], &mut work)?, Verdict::Different);
//!
//! // Two monitors on that walk: one has all points watched, one is under the plan.
//! let rule = rule(file, &mut work)?;
//! let (mut full, mut planned) = (Record::default(), Record::default());
//! for (node, symbol) in [(0, 0), (1, 0), (2, 2)] {
//!     let report = rule.event(symbol, &mut full)?;
//!     let under_plan = match plan[node] {
//!         1 => rule.event(symbol, &mut planned)?,
//!         _ => Report::Quiet,
//!     };
//!     assert_eq!(report, under_plan);
//!     assert_eq!(full.alarms, planned.alarms);
//! }
//! assert_eq!(planned, Record { state: 2, alarms: 1 });
//! # Ok(())
//! # }
//! ```
//!
//! # Threads
//! A monitor is its record. Monitors of one rule share the rule and nothing else:
//!
//! ```
//! use dapohiru::{Record, Report, Rule};
//! use std::thread;
//!
//! // one state, which is final
//! let rule = Rule { table: [0; 256], states: 1, symbols: 1, finals: 1 };
//! let mut batches = [Record::default(); 4];
//! thread::scope(|scope| {
//!     for record in &mut batches {
//!         let rule = &rule;
//!         scope.spawn(move || {
//!             for _ in 0..1_000 {
//!                 assert_eq!(rule.event(0, record), Ok(Report::Alarm));
//!             }
//!         });
//!     }
//! });
//! assert!(batches.iter().all(|record| record.alarms == 1_000));
//! ```
mod answer;
mod arrivals;
mod error;
mod expression;
mod ffi;
mod job;
pub mod numbers;
pub mod planfile;
mod price;
mod readers;
mod record;
mod rows;

pub use answer::{Counts, Refusal, Report, Verdict};
pub use arrivals::Arrivals;
pub use error::{JobError, NoPoint, NotAdmitted, ReportError};
pub use expression::expression;
pub use job::{Entry, Job, Point};
pub use price::{price, price_by};
pub use record::{rule, Record, Rule};
pub use rows::rows;

/// The Rust code of docs/SERVICE.md, to be compiled with the examples.
#[cfg(doctest)]
#[doc = include_str!("../../docs/SERVICE.md")]
struct Service;

/// The greatest length of a job file.
pub const JOB_LEN: usize = 49_914;
/// The greatest length of a volume file: 14 bytes for each of 512 nodes.
pub const VOLUMES_LEN: usize = 7_168;
/// The length of a price file: 14 bytes for each of 16 symbols.
pub const PRICES_LEN: usize = 224;
/// The greatest length of a text of rule rows: 32 bytes for each of 256 rows.
pub const ROWS_LEN: usize = 8_192;
/// The greatest length of an expression.
pub const EXPRESSION_LEN: usize = 64;
/// The least length of a work buffer, and the bytes of it that an answer clears.
pub const WORK_LEN: usize = 65_536;
/// The least length of a plan buffer.
pub const PLAN_LEN: usize = 512;
/// The least length of a listing buffer.
pub const LISTING_LEN: usize = 32_768;
/// The length of a rule.
pub const RULE_LEN: usize = 256;
/// The length of a record.
pub const RECORD_LEN: usize = 16;
/// The numbers in a list of 2,048 edges.
pub const EDGES_LEN: usize = 4_096;
/// The numbers in a list of the predecessors that 2,048 edges make.
pub const PREDECESSORS_LEN: usize = 2_048;
/// The numbers in a list of the starts of 512 nodes, and the end of the last.
pub const STARTS_LEN: usize = 513;

/// Plans: writes the plan of the job of a job file to the start of `plan`, and gives the counts.
///
/// The plan is one byte for each node, 1 at a watched point and 0 at all else; bytes of `plan` past
/// them are as they were. `plan` is at least 512 bytes, and `work` at least 65,536.
///
/// Refused are 1 to 10. A refusal leaves `plan` as it was. Refusals 1 and 2 leave `work` as it was;
/// after any other answer its first 65,536 bytes are zero, and the rest is as it was.
///
/// ```
/// use dapohiru::{plan, Refusal, PLAN_LEN, WORK_LEN};
///
/// let (mut bytes, mut work) = ([7; PLAN_LEN], vec![7; WORK_LEN]);
/// // one state and one node, an event that is the entry; nothing can alarm
/// let job = b"\
/// J     1     1     1     0
/// R     0     0     0
/// P     0     1     0     1     0     0
/// ";
/// let counts = plan(job, &mut work, &mut bytes).unwrap();
/// assert_eq!((counts.points, counts.watched, counts.passes), (1, 0, 2));
/// assert_eq!(bytes[..2], [0, 7]);
/// assert!(work.iter().all(|&byte| byte == 0));
///
/// // a cut line is refused as 4, and the plan stays
/// assert_eq!(plan(&job[..9], &mut work, &mut bytes), Err(Refusal(4)));
/// assert_eq!(bytes[..2], [0, 7]);
/// ```
#[inline]
pub fn plan(job: &[u8], work: &mut [u8], plan: &mut [u8]) -> Result<Counts, Refusal> {
    let number = numbers::plan(job, work, plan);
    match number / numbers::ACCEPTED {
        1 => Ok(Counts {
            points: number >> 32 & 0xffff,
            watched: number >> 16 & 0xffff,
            passes: number & 0xffff,
        }),
        _ => Err(Refusal(number)),
    }
}

/// Lists: writes the W and T lines of the job of a job file to the start of `listing`, and gives their
/// length.
///
/// Bytes of `listing` past the lines are as they were. `listing` is at least 32,768 bytes, and `work`
/// at least 65,536.
///
/// Refused are 1 to 10. A refusal leaves `listing` as it was. Refusals 1 and 2 leave `work` as it was;
/// after any other answer its first 65,536 bytes are zero, and the rest is as it was.
///
/// ```
/// use dapohiru::{list, Refusal, LISTING_LEN, WORK_LEN};
///
/// let (mut listing, mut work) = (vec![b'?'; LISTING_LEN], vec![0; WORK_LEN]);
/// let job = b"\
/// J     1     1     1     0
/// R     0     0     0
/// P     0     1     0     1     0     0
/// ";
/// let len = list(job, &mut work, &mut listing).unwrap();
/// let lines = b"\
/// W     0     0     1     1     1     0
/// T     1     0     2
/// ";
/// assert_eq!(&listing[..len], lines);
/// assert_eq!(listing[len], b'?');
///
/// assert_eq!(list(job, &mut work, &mut listing[1..]), Err(Refusal(2)));
/// ```
#[inline]
pub fn list(job: &[u8], work: &mut [u8], listing: &mut [u8]) -> Result<usize, Refusal> {
    let number = numbers::list(job, work, listing);
    match number.checked_sub(numbers::ACCEPTED) {
        Some(len) if len <= listing.len() as u64 => Ok(len as usize),
        _ => Err(Refusal(number)),
    }
}

/// Checks a plan: whether it is faithful to the job of a job file.
///
/// `plan` is one byte for each node, 1 at a watched point and 0 at all else. `work` is at least 65,536
/// bytes.
///
/// Refused are 1 to 12. Refusals 1 and 2 leave `work` as it was. After any other answer its first
/// 65,536 bytes are zero, and the rest is as it was.
///
/// ```
/// use dapohiru::{check, Refusal, Verdict, WORK_LEN};
///
/// let mut work = vec![0; WORK_LEN];
/// // the only state is final, so that the point alarms at every visit
/// let job = b"\
/// J     1     1     1     0
/// R     0     1     0
/// P     0     1     0     1     0     0
/// ";
/// assert_eq!(check(job, &[1], &mut work), Ok(Verdict::Faithful));
/// assert_eq!(check(job, &[0], &mut work), Ok(Verdict::Different));
/// assert_eq!(check(job, &[0, 0], &mut work), Err(Refusal(11)));
/// assert_eq!(check(job, &[2], &mut work), Err(Refusal(12)));
/// ```
#[inline]
pub fn check(job: &[u8], plan: &[u8], work: &mut [u8]) -> Result<Verdict, Refusal> {
    match numbers::check(job, plan, work) {
        numbers::ACCEPTED => Ok(Verdict::Faithful),
        numbers::DIFFERENT => Ok(Verdict::Different),
        number => Err(Refusal(number)),
    }
}

/// Takes one event: moves the record to the next state, and raises its alarm total at an alarm.
///
/// `rule` is 256 bytes, sixteen rows of sixteen next states; those past `states` rows and `symbols`
/// columns have no meaning. `finals` is the set of final states, bit q for state q. `record` is 16
/// bytes, the state and then the alarm total, each with its lowest byte first; the total stays at
/// 2^64-1 once there.
///
/// Refused are 13 to 15. A refusal leaves `record` as it was.
///
/// ```
/// use dapohiru::{event, Refusal, Report};
///
/// // two states that take turns on the only symbol; 1 is final
/// let mut rule = [0; 256];
/// rule[0] = 1;
/// let mut record = [0; 16];
/// assert_eq!(event(&rule, 2, 1, 0b10, 0, &mut record), Ok(Report::Alarm));
/// assert_eq!(record, [1, 0, 0, 0, 0, 0, 0, 0, 1, 0, 0, 0, 0, 0, 0, 0]);
/// assert_eq!(event(&rule, 2, 1, 0b10, 1, &mut record), Err(Refusal(14)));
/// assert_eq!(event(&rule, 2, 1, 0b10, 0, &mut record), Ok(Report::Quiet));
/// assert_eq!(record, [0, 0, 0, 0, 0, 0, 0, 0, 1, 0, 0, 0, 0, 0, 0, 0]);
/// ```
#[inline]
pub fn event(
    rule: &[u8],
    states: u64,
    symbols: u64,
    finals: u64,
    symbol: u64,
    record: &mut [u8],
) -> Result<Report, Refusal> {
    match numbers::event(rule, states, symbols, finals, symbol, record) {
        numbers::ACCEPTED => Ok(Report::Quiet),
        numbers::ALARM => Ok(Report::Alarm),
        number => Err(Refusal(number)),
    }
}
