//! Two records on one walk, altered by the event step alone (document 01, "Two monitors on one walk").
use crate::library::Library;
use dapohiru::numbers::{ACCEPTED, ALARM};
use dapohiru::Rule;
use dapohiru_generators::random::Random;
use dapohiru_second::job::Job;
use dapohiru_second::walk::Event;

/// A record of 16 bytes, with bytes past it that no call may change.
type Room = [u8; 40];

/// What stands past the record.
const PAST: [u8; 24] = [0xa5; 24];

/// What a pair of records has been told.
#[derive(Clone, Copy, Debug, Default)]
pub struct Tally {
    pub events: u64,
    pub alarms: u64,
    /// Events not given to the planned record.
    pub skipped: u64,
    /// Calls refused as 13, 14 and 15.
    pub refused: [u64; 3],
    /// Alarms at which the total was 2^64-1 already.
    pub saturated: u64,
}

impl Tally {
    /// Adds what another pair has been told.
    pub fn add(&mut self, other: Tally) {
        self.events += other.events;
        self.alarms += other.alarms;
        self.skipped += other.skipped;
        self.saturated += other.saturated;
        let refused = self.refused.iter_mut().zip(other.refused);
        refused.for_each(|(count, other)| *count += other);
    }
}

/// The full and the planned record of one walk.
pub struct Records<'a> {
    library: Library,
    job: &'a Job,
    /// The state that full is in, by the job that the walk is one of.
    state: usize,
    rule: &'a Rule,
    plan: &'a [u8],
    full: Room,
    planned: Room,
    pub tally: Tally,
}

impl<'a> Records<'a> {
    /// Two records in the same state and with the same alarm total, whose events are taken by this rule: the
    /// job's, as the library takes it from a file.
    pub fn new(
        library: Library,
        job: &'a Job,
        rule: &'a Rule,
        plan: &'a [u8],
        state: usize,
        alarms: u64,
    ) -> Self {
        let mut room = [0xa5; 40];
        room[..8].copy_from_slice(&(state as u64).to_le_bytes());
        room[8..16].copy_from_slice(&alarms.to_le_bytes());
        Records {
            library,
            job,
            state,
            rule,
            plan,
            full: room,
            planned: room,
            tally: Tally::default(),
        }
    }

    /// Gives an event to the full record, and to the planned one unless the plan has its point
    /// unwatched. Says whether the reports are the same, or in words what else is wrong.
    fn take(&mut self, of: Event) -> Result<bool, String> {
        let Rule {
            table,
            states,
            symbols,
            finals,
        } = self.rule;
        let symbol = of.symbol() as u64;
        let take = |room: &mut Room| {
            let event = self.library.event;
            match event(table, *states, *symbols, *finals, symbol, &mut room[..16]) {
                ACCEPTED => Ok(false),
                ALARM => Ok(true),
                number => Err(format!("{number} for {of:?}, an event of a walk")),
            }
        };
        let highest = self.full[8..16] == [0xff; 8];
        let full = take(&mut self.full)?;
        self.state = self.job.next[self.state][of.symbol()] as usize;
        let alarms = self.job.finals[self.state] == 1;
        if full != alarms || self.full[..8] != (self.state as u64).to_le_bytes() {
            return Err(format!(
                "after {of:?} the record is {:?}, and by the job's rule the state is {} and alarm {alarms}",
                &self.full[..16],
                self.state
            ));
        }
        let given = match of {
            Event::Point(node, _) => self.plan[node] == 1,
            Event::Call(_) | Event::After(_) => true,
        };
        let planned = given && take(&mut self.planned)?;
        self.tally.events += 1;
        self.tally.alarms += u64::from(full);
        self.tally.skipped += u64::from(!given);
        self.tally.saturated += u64::from(full && highest);
        if self.full[16..] != PAST || self.planned[16..] != PAST {
            return Err(format!("{of:?} changes bytes past the record"));
        }
        if full == planned && self.full[8..] != self.planned[8..] {
            return Err(format!(
                "after {of:?} and equal reports the alarm totals are not"
            ));
        }
        Ok(full == planned)
    }

    /// Makes a call on one of the records that is refused, and looks at every byte of the record.
    fn refuse(&mut self, random: &mut Random) -> Result<(), String> {
        let room = match random.below(2) {
            0 => &mut self.full,
            _ => &mut self.planned,
        };
        let state = u64::from(room[0]);
        let (mut rule_len, mut record_len) = (256, 16);
        let Rule {
            table: mut rule,
            mut states,
            mut symbols,
            mut finals,
        } = *self.rule;
        let mut symbol = random.below(symbols);
        let wanted = match random.below(10) {
            0 => {
                rule_len = random.pick(&[0, 1, 255]);
                13
            }
            1 => {
                states = random.pick(&[0, 17, 1 << 32, u64::MAX]);
                13
            }
            2 => {
                symbols = random.pick(&[0, 17, 1 << 32, u64::MAX]);
                13
            }
            3 => {
                let place = 16 * random.below(states) + random.below(symbols);
                rule[place as usize] = random.between(states, 255) as u8;
                13
            }
            4 => {
                finals |= 1 << random.between(states, 63);
                13
            }
            5..=6 => {
                let any = random.number() | 1 << 20;
                symbol = random.pick(&[symbols, symbols + 1, 256, 1 << 32, any, u64::MAX]);
                14
            }
            7 if state > 0 => {
                // a rule of fewer states, under which the record has none
                (rule, states, finals) = ([0; 256], state, 0);
                15
            }
            _ => {
                record_len = random.pick(&[0, 1, 8, 15, 17, 24, 40]);
                15
            }
        };
        let before = *room;
        let answer = (self.library.event)(
            &rule[..rule_len],
            states,
            symbols,
            finals,
            symbol,
            &mut room[..record_len],
        );
        if answer != wanted {
            return Err(format!("{answer} for a call that refusal {wanted} names"));
        }
        if *room != before {
            return Err(format!("refusal {wanted} changes the record"));
        }
        self.tally.refused[wanted as usize - 13] += 1;
        Ok(())
    }

    /// Gives events to both records, with refused calls between, up to the last or to the first at which
    /// the reports differ; gives how many came before that one, or in words what else is wrong.
    pub fn first_difference(
        &mut self,
        random: &mut Random,
        mut next: impl FnMut(&mut Random) -> Option<Event>,
    ) -> Result<Option<u64>, String> {
        loop {
            while random.once_in(6) {
                self.refuse(random)?;
            }
            let before = self.tally.events;
            let Some(event) = next(random) else {
                return Ok(None);
            };
            if !self.take(event)? {
                return Ok(Some(before));
            }
        }
    }
}
