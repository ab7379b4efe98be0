//! What the rounds came to.
use dapohiru_compare::arrivals::{self, Kind};
use dapohiru_compare::checking;
use dapohiru_compare::library::refused;
use dapohiru_compare::pricing::By;
use dapohiru_compare::promise::{Needed, Walked};
use dapohiru_compare::records;
use dapohiru_compare::ruling;
use dapohiru_compare::serving;
use dapohiru_second::pricing;
use dapohiru_second::step::Answer;
use std::fmt;

/// How often each answer came, and what the walks had.
#[derive(Default)]
pub struct Tally {
    pub planned: u64,
    pub listed: u64,
    pub faithful: u64,
    pub different: u64,
    pub priced: u64,
    pub priced_by: u64,
    taken: u64,
    made: u64,
    expressed: u64,
    added: u64,
    dropped: u64,
    indexed: u64,
    pub quiet: u64,
    pub alarm: u64,
    /// By number, up to 28.
    pub refused: [u64; 29],
    walks: u64,
    /// Walks that came in again, and walks that returned.
    came_in: u64,
    returned: u64,
    /// What the two records of the walks were told.
    told: records::Tally,
    /// Watched points for which a walk was taken that needs them.
    needed: u64,
}

/// What each refusal means.
const MEANINGS: [(usize, &str); 23] = [
    (1, "the file is longer than 49,914 bytes"),
    (2, "a lent buffer is too short"),
    (3, "the file ends where a line is due"),
    (4, "a line has not its letter, its fields or its end byte"),
    (5, "a J number is outside its limits"),
    (6, "an R line"),
    (7, "a P line"),
    (8, "an F line"),
    (9, "bytes follow the last line"),
    (10, "no node is an entry"),
    (11, "a plan is not exactly N bytes"),
    (
        12,
        "a plan byte is above 1, or is 1 at a node that is no event",
    ),
    (13, "a rule, or a rule buffer that is not 256 bytes"),
    (14, "a symbol"),
    (15, "a record"),
    (
        16,
        "a volume file is not exactly one V line for each node, in order",
    ),
    (17, "rule rows, or a number of them or given with them"),
    (18, "two rule rows name one pair of state and symbol"),
    (19, "a pair of state and symbol has no rule row"),
    (20, "an expression, or the symbols given with it"),
    (21, "an expression has more than 16 states"),
    (22, "an edge, or edges and their index"),
    (
        28,
        "a price file is not exactly one B line for each of 16 symbols, in order",
    ),
];

impl Tally {
    /// Counts a refusal. The comparison has seen that the number is one.
    pub fn add_refused(&mut self, number: u64, count: u64) {
        if let Some(of) = self.refused.get_mut(number as usize) {
            *of += count;
        }
    }

    /// Counts an answer of planning or listing.
    pub fn add_served(&mut self, said: serving::Said) {
        match said {
            serving::Said::Planned => self.planned += 1,
            serving::Said::Listed => self.listed += 1,
            serving::Said::Refused(number) => self.add_refused(number, 1),
        }
    }

    /// Counts an answer of the plan check.
    pub fn add_checked(&mut self, said: checking::Said) {
        match said {
            checking::Said::Faithful => self.faithful += 1,
            checking::Said::Different => self.different += 1,
            checking::Said::Refused(number) => self.add_refused(number, 1),
        }
    }

    /// Counts an answer of pricing by the house table or by a price file.
    pub fn add_priced(&mut self, by: By, answer: pricing::Answer) {
        match (answer, by) {
            (pricing::Answer::Cents(_), By::House) => self.priced += 1,
            (pricing::Answer::Cents(_), By::File) => self.priced_by += 1,
            (pricing::Answer::Refused(number), _) => self.add_refused(number, 1),
        }
    }

    /// Counts an answer of the call for a job's rule.
    pub fn add_taken(&mut self, said: ruling::Said) {
        match said {
            ruling::Said::Taken => self.taken += 1,
            ruling::Said::Refused(number) => self.add_refused(number, 1),
        }
    }

    /// Counts an answer of the call for rule rows, by its number.
    pub fn add_made(&mut self, number: u64) {
        match refused(number) {
            None => self.made += 1,
            Some(number) => self.add_refused(number, 1),
        }
    }

    /// Counts an answer of the call for an expression, by its number.
    pub fn add_expressed(&mut self, number: u64) {
        match refused(number) {
            None => self.expressed += 1,
            Some(number) => self.add_refused(number, 1),
        }
    }

    /// Counts an answer of a call on edges.
    pub fn add_on_edges(&mut self, said: arrivals::Said) {
        match said {
            (Kind::Add, None) => self.added += 1,
            (Kind::Drop, None) => self.dropped += 1,
            (Kind::Index, None) => self.indexed += 1,
            (_, Some(number)) => self.add_refused(number, 1),
        }
    }

    /// Counts an answer of the event step.
    pub fn add_stepped(&mut self, answer: Answer) {
        match answer {
            Answer::Quiet => self.quiet += 1,
            Answer::Alarm => self.alarm += 1,
            Answer::Refused(number) => self.add_refused(number, 1),
        }
    }

    /// Counts a walk, and the rule that was taken for it.
    pub fn add_walk(&mut self, walked: &Walked) {
        self.walks += 1;
        self.taken += 1;
        self.came_in += u64::from(walked.came_in > 0);
        self.returned += u64::from(walked.returned > 0);
        self.add_told(walked.tally);
    }

    /// Counts the walks that need a plan's watched points, and the rule that was taken for them.
    pub fn add_needed(&mut self, needed: &Needed) {
        self.walks += 2 * needed.points as u64;
        self.taken += 1;
        self.came_in += 2 * needed.came_in as u64;
        self.returned += 2 * needed.returned as u64;
        self.needed += needed.points as u64;
        self.add_told(needed.tally);
    }

    fn add_told(&mut self, told: records::Tally) {
        self.told.add(told);
        for (number, count) in (13..).zip(told.refused) {
            self.add_refused(number, count);
        }
    }

    /// All calls.
    pub fn calls(&self) -> u64 {
        let checked = self.faithful + self.different;
        let priced = self.priced + self.priced_by;
        let made = self.taken + self.made + self.expressed;
        let on_edges = self.added + self.dropped + self.indexed;
        let accepted = self.planned + self.listed + checked + priced + made + on_edges;
        let on_walks = 2 * self.told.events - self.told.skipped;
        let refused: u64 = self.refused.iter().sum();
        accepted + self.quiet + self.alarm + on_walks + refused
    }
}

/// A line for each answer that came, and for each refusal.
impl fmt::Display for Tally {
    fn fmt(&self, f: &mut fmt::Formatter<'_>) -> fmt::Result {
        for (count, what) in [
            (self.planned, "jobs planned"),
            (self.listed, "jobs listed"),
            (self.faithful, "plans faithful"),
            (self.different, "plans different"),
            (self.priced, "plans priced by the house table"),
            (self.priced_by, "plans priced by a price file"),
            (self.taken, "rules taken from jobs"),
            (self.made, "rules made from rows"),
            (self.expressed, "rules made from expressions"),
            (self.added, "edges added"),
            (self.dropped, "edges dropped"),
            (self.indexed, "indexes of edges made"),
            (self.quiet, "events quiet"),
            (self.alarm, "events with an alarm"),
            (self.walks, "walks with two monitors"),
            (self.came_in, "of these walks that came in again"),
            (self.returned, "of these walks that returned"),
            (self.told.events, "events of walks"),
            (self.told.alarms, "alarms on walks"),
            (self.told.skipped, "events skipped under a plan"),
            (
                self.needed,
                "watched points, each with a walk that needs it",
            ),
        ] {
            if count > 0 {
                writeln!(f, "{count:>12}  {what}")?;
            }
        }
        for (number, meaning) in MEANINGS {
            let count = self.refused[number];
            writeln!(f, "{count:>12}  refused {number:>2}: {meaning}")?;
        }
        Ok(())
    }
}
