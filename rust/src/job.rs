//! A job as a service has it: from the bytes of its file to alarms, with nothing typed twice.
use crate::readers::{self, NodeAndSymbol};
use crate::{
    check, rule, Counts, JobError, NoPoint, NotAdmitted, Record, Refusal, Report, ReportError,
    Rule, Verdict, WORK_LEN,
};
use dapohiru_second::job::members;

/// A job with its plan and its rule, made once for each release and shared by all monitors of its procedure.
///
/// The rule is that of [`rule`](crate::rule()), the plan that of [`plan`](crate::plan()) or one that
/// [`check`](crate::check()) finds faithful, and the points and their symbols stand in the W lines of
/// [`list`](crate::list()). These calls are proved. The entries with their admitted states are read by
/// `dapohiru_second`, the second implementation, which is tested against the proved calls and not proved:
/// it reads a file that they have accepted, and where it has another rule, other nodes or other points, there
/// is no `Job`.
///
/// What holds of a batch: its walk is one of the job, and begins at the entry and in the state that
/// [`start`](Job::start) was given; each of its events is reported once and in walk order, by
/// [`report`](Job::report) or [`other`](Job::other), on the record of that `start`. Then it has the alarms of a
/// monitor that begins alike and is given every event. That the entry admits the state is what the second
/// implementation has read: so this holds if the entries are read rightly, which is tested and not proved.
///
/// The two constructors and a clone allocate; no other function does, and none panics.
///
/// ```
/// use dapohiru::{Counts, Job, Point, Record, Report};
///
/// # fn main() -> Result<(), Box<dyn std::error::Error>> {
/// // PAIR: seal, seal, write
/// let file = b"\
/// J     3     3     3     2
/// R     0     0     1     0     0
/// R     1     0     1     0     2
/// R     2     1     1     0     2
/// P     0     1     0     1     0     0
/// P     1     1     0     0     0     0
/// P     2     1     2     0     1     0
/// F     0     1
/// F     1     2
/// ";
/// let job = Job::new(file)?;
/// assert_eq!(job.plan(), [0, 1, 1]);
/// assert_eq!(job.counts(), Counts { points: 3, watched: 2, passes: 2 });
/// assert_eq!(job.point(2)?, Point { node: 2, symbol: 2, watched: true });
/// assert_eq!(job.point(3).unwrap_err().to_string(), "there is no node 3; the job has 3");
///
/// // a batch that comes in at node 0, in state 0
/// let mut record = job.start(0, 0)?;
/// assert_eq!(job.report(0, &mut record)?, Report::Quiet);
/// assert_eq!(job.report(1, &mut record)?, Report::Quiet);
/// assert_eq!(job.report(2, &mut record)?, Report::Alarm);
/// // another procedure writes to it, too
/// assert_eq!(job.other(2, &mut record)?, Report::Alarm);
/// assert_eq!(record, Record { state: 2, alarms: 2 });
/// # Ok(())
/// # }
/// ```
#[derive(Clone, Debug, PartialEq, Eq)]
pub struct Job {
    rule: Rule,
    plan: Vec<u8>,
    counts: Counts,
    /// For each node its symbol, where it is a point.
    symbols: Vec<Option<u64>>,
    entries: Vec<Entry>,
}

/// An event node of a job.
#[derive(Clone, Copy, Debug, PartialEq, Eq)]
pub struct Point {
    /// The node's number.
    pub node: usize,
    /// The symbol that it reports.
    pub symbol: u64,
    /// Whether the plan has it watched.
    pub watched: bool,
}

/// A node where walks begin.
#[derive(Clone, Copy, Debug, PartialEq, Eq)]
pub struct Entry {
    /// The node's number.
    pub node: usize,
    /// The set of admitted start states: bit q stands for state q.
    pub admitted: u64,
}

impl Entry {
    /// Whether a walk may begin here in this state.
    pub fn admits(self, state: u64) -> bool {
        self.states().any(|admitted| admitted == state)
    }

    /// The admitted start states, in rising order.
    pub fn states(self) -> impl Iterator<Item = u64> {
        members(self.admitted).map(|state| state as u64)
    }
}

impl Job {
    /// The job of a job file, under the plan that planning makes. It allocates, and plans the job twice, once
    /// for the plan and once for the listing.
    ///
    /// ```
    /// use dapohiru::{Job, JobError, Refusal};
    ///
    /// assert_eq!(Job::new(b""), Err(JobError::Refused(Refusal(3))));
    /// ```
    pub fn new(file: &[u8]) -> Result<Self, JobError> {
        let work = &mut vec![0; WORK_LEN];
        let (plan, counts) = readers::planned(file, work)?;
        let points = readers::points(file, work)?;
        Job::under(file, work, plan, counts, &points)
    }

    /// The job of a job file, under a plan of somebody else, which the plan check must find faithful. Its
    /// counts are of this plan, and have no pass. It allocates, and plans the job once, for the listing.
    ///
    /// ```
    /// use dapohiru::{planfile, Job, JobError, Refusal};
    ///
    /// # fn main() -> Result<(), Box<dyn std::error::Error>> {
    /// // the only state is final, so that the point alarms at every visit
    /// let file = b"\
    /// J     1     1     1     0
    /// R     0     1     0
    /// P     0     1     0     1     0     0
    /// ";
    /// let job = Job::with_plan(file, &planfile::read(b"1\n")?)?;
    /// assert_eq!((job.counts().watched, job.counts().passes), (1, 0));
    /// assert_eq!(Job::with_plan(file, &[0]), Err(JobError::Different));
    /// assert_eq!(Job::with_plan(file, &[2]), Err(JobError::Refused(Refusal(12))));
    /// # Ok(())
    /// # }
    /// ```
    pub fn with_plan(file: &[u8], plan: &[u8]) -> Result<Self, JobError> {
        let work = &mut vec![0; WORK_LEN];
        match check(file, plan, work)? {
            Verdict::Faithful => {}
            Verdict::Different => return Err(JobError::Different),
        }
        let points = readers::points(file, work)?;
        let counts = Counts {
            points: points.len() as u64,
            watched: plan.iter().filter(|&&byte| byte == 1).count() as u64,
            passes: 0,
        };
        Job::under(file, work, plan.to_vec(), counts, &points)
    }

    /// The job of a file under a plan of as many bytes as there are nodes.
    fn under(
        file: &[u8],
        work: &mut [u8],
        plan: Vec<u8>,
        counts: Counts,
        points: &[NodeAndSymbol],
    ) -> Result<Self, JobError> {
        let rule = rule(file, work)?;
        let entries = readers::entries(file, &rule, plan.len(), points)?;
        let mut symbols = vec![None; plan.len()];
        for &(node, symbol) in points {
            if let Some(of_node) = symbols.get_mut(node) {
                *of_node = Some(symbol);
            }
        }
        Ok(Job {
            rule,
            plan,
            counts,
            symbols,
            entries,
        })
    }

    /// The rule that the events are taken by.
    pub fn rule(&self) -> &Rule {
        &self.rule
    }

    /// The plan: one byte for each node, 1 at a watched point and 0 at all else.
    pub fn plan(&self) -> &[u8] {
        &self.plan
    }

    /// The points of the job, those that the plan has watched, and the passes that planning made.
    pub fn counts(&self) -> Counts {
        self.counts
    }

    /// How many nodes there are.
    pub fn nodes(&self) -> usize {
        self.plan.len()
    }

    /// The entries in number order, each with its admitted states. There is one at least.
    pub fn entries(&self) -> &[Entry] {
        &self.entries
    }

    /// The points in number order.
    pub fn points(&self) -> impl Iterator<Item = Point> + '_ {
        (0..self.nodes()).filter_map(|node| self.point(node).ok())
    }

    /// The point at a node, or that there is none.
    pub fn point(&self, node: usize) -> Result<Point, NoPoint> {
        let nodes = self.nodes();
        let symbol = self.symbols.get(node).copied().flatten();
        let symbol = symbol.ok_or(NoPoint { node, nodes })?;
        let watched = self.plan.get(node) == Some(&1);
        Ok(Point {
            node,
            symbol,
            watched,
        })
    }

    /// The record of a monitor that begins before an entry in a state that is admitted there, without an
    /// alarm.
    ///
    /// ```
    /// use dapohiru::{Job, Record};
    ///
    /// // state 1 alone is admitted at node 0
    /// let file = b"\
    /// J     2     1     2     1
    /// R     0     0     0
    /// R     1     1     1
    /// P     0     1     0     2     0     0
    /// P     1     0     0     0     0     0
    /// F     0     1
    /// ";
    /// let job = Job::new(file).unwrap();
    /// assert_eq!(job.start(0, 1), Ok(Record { state: 1, alarms: 0 }));
    /// let said = |entry, state| job.start(entry, state).unwrap_err().to_string();
    /// assert_eq!(said(0, 0), "entry 0 does not admit state 0; it admits 1");
    /// assert_eq!(said(1, 1), "node 1 is no entry");
    /// ```
    pub fn start(&self, entry: usize, state: u64) -> Result<Record, NotAdmitted> {
        let of_node = self.entries.iter().find(|of| of.node == entry);
        match of_node {
            Some(of) if of.admits(state) => Ok(Record { state, alarms: 0 }),
            of_node => Err(NotAdmitted {
                entry,
                state,
                admitted: of_node.map_or(0, |of| of.admitted),
            }),
        }
    }

    /// Takes the event of the point at a node on `record` where the plan has it watched. Where it has not, the
    /// event is quiet, and `record` is not looked at.
    ///
    /// A node that is no point is an error, and so is a record in a state that the job lacks (15). An error
    /// leaves `record` as it was.
    pub fn report(&self, node: usize, record: &mut Record) -> Result<Report, ReportError> {
        let point = self.point(node)?;
        match point.watched {
            true => Ok(self.rule.event(point.symbol, record)?),
            false => Ok(Report::Quiet),
        }
    }

    /// Takes an event of another procedure (of a call word) or of what follows an exit (of an after word) on
    /// `record`; under a plan, too, the monitor is given each of them.
    ///
    /// Refused are 14 for a symbol that the job lacks and 15 for a record in a state that it lacks. A refusal
    /// leaves `record` as it was.
    pub fn other(&self, symbol: u64, record: &mut Record) -> Result<Report, Refusal> {
        self.rule.event(symbol, record)
    }
}
