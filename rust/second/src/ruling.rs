//! Taking the rule of a job as a call: its refusals in order, its answer, and what it leaves in the rule buffer and
//! in the work buffer.
use crate::job::Job;
use crate::outcome;
use crate::reading::{LONGEST, WORK};
use crate::rulebuffer::{RuleBuffer, RULE};
use crate::slip::Slip;
use crate::work::Left;

/// One call.
#[derive(Clone, Copy)]
pub struct Call<'a> {
    pub file_len: usize,
    /// The job that the file holds, or the refusal, 3 to 10, that it deserves.
    pub held: Result<&'a Job, u64>,
    pub work_len: usize,
    /// The length of the rule buffer.
    pub rule_len: usize,
}

/// The answer to a call.
#[derive(Clone, Copy, Debug, PartialEq, Eq)]
pub enum Answer {
    /// With the counts of states and symbols, and the set of final states.
    Taken([u64; 3]),
    Refused(u64),
}

/// What a call leaves in the rule buffer and in the work buffer.
pub type Outcome = outcome::Outcome<Answer>;

/// What a call leaves, with one slip or with none.
pub fn take(call: &Call, slip: Option<Slip>) -> Outcome {
    let rule = RuleBuffer {
        len: call.rule_len,
        slip,
    };
    let ruling = Ruling { slip, rule };
    let (answer, bytes) = match ruling.accepted(call) {
        Ok(job) => (Answer::Taken(ruling.numbers(job)), ruling.table(job)),
        Err(number) => (Answer::Refused(number), ruling.on_refusal(call, number)),
    };
    Outcome {
        answer,
        written: rule.written(bytes),
        cleared: ruling.cleared(call, answer),
    }
}

/// The call, with one slip or with none.
#[derive(Clone, Copy)]
struct Ruling {
    slip: Option<Slip>,
    rule: RuleBuffer,
}

impl Ruling {
    fn slips(self, slip: Slip) -> bool {
        self.slip == Some(slip)
    }

    /// The job whose rule is taken, or the first refusal that applies.
    fn accepted<'a>(self, call: &Call<'a>) -> Result<&'a Job, u64> {
        let too_long = (call.file_len > LONGEST).then_some(1);
        let work = (call.work_len < WORK).then_some(2);
        let unread = call.held.err();
        let [early, entry] = match unread {
            Some(10) => [None, unread],
            _ => [unread, None],
        };
        let length = self.rule.refusal();
        let tests = match self.slip {
            Some(Slip::WorkBeforeLength) => [work, too_long, early, entry, length],
            Some(Slip::WorkAfterFile) => [too_long, early, entry, work, length],
            Some(Slip::RuleBeforeLength) => [length, too_long, work, early, entry],
            Some(Slip::RuleBeforeWork) => [too_long, length, work, early, entry],
            Some(Slip::RuleBeforeFile) => [too_long, work, length, early, entry],
            Some(Slip::RuleBeforeEntry) => [too_long, work, early, length, entry],
            _ => [too_long, work, early, entry, length],
        };
        match tests.into_iter().flatten().next() {
            Some(number) => Err(number),
            None => call.held,
        }
    }

    /// The counts of states and symbols, and the set of final states.
    fn numbers(self, job: &Job) -> [u64; 3] {
        let [states, symbols, finals] = [job.states() as u64, job.symbols, job.final_set()];
        match self.slip {
            Some(Slip::StatesAndSymbolsSwapped) => [symbols, states, finals],
            Some(Slip::FinalsBeforeSymbols) => [states, finals, symbols],
            Some(Slip::CountsCutTo4Bits) => [states % 16, symbols % 16, finals],
            Some(Slip::FinalsShifted) => [states, symbols, finals << 1 & 0xffff],
            Some(Slip::FinalsFromTheHighest) => {
                let turned = u64::from((finals as u16).reverse_bits());
                [states, symbols, turned >> (16 - states)]
            }
            Some(Slip::LastFinalLeftOut) => [states, symbols, finals & !(1 << (states - 1))],
            Some(Slip::OthersFinal) => [states, symbols, ((1 << states) - 1) & !finals],
            _ => [states, symbols, finals],
        }
    }

    /// The table of a job's rule.
    fn table(self, job: &Job) -> Vec<Option<u8>> {
        let (states, symbols) = (job.states(), job.symbols as usize);
        let next = |state: usize, symbol: usize| job.next[state][symbol];
        self.rule.table(states, symbols, next)
    }

    /// What a refusal writes: nothing, but for slips.
    fn on_refusal(self, call: &Call, number: u64) -> Vec<Option<u8>> {
        match (self.slip, call.held) {
            (Some(Slip::RefusalClearsRule), _) if number > 2 => vec![Some(0); call.rule_len],
            (Some(Slip::FileRefusalClearsRule), Err(_)) if number > 2 => vec![Some(0); RULE],
            (Some(Slip::WrongLengthWritten), Ok(job)) if number == 13 => self.table(job),
            (Some(Slip::ShortWorkWritesRule), Ok(job)) if number == 2 => self.table(job),
            _ => Vec::new(),
        }
    }

    /// How many bytes of the work buffer are zero afterwards.
    fn cleared(self, call: &Call, answer: Answer) -> usize {
        let unchanged = match answer {
            Answer::Refused(1 | 2) => !self.slips(Slip::ClearsAfterOneAndTwo),
            Answer::Refused(3..=10) => self.slips(Slip::RuleOfNoJobLeavesWork),
            Answer::Refused(_) => self.slips(Slip::WrongLengthLeavesWork),
            Answer::Taken(_) => self.slips(Slip::TakenRuleLeavesWork),
        };
        let rest_cleared = match (self.slip, answer) {
            (Some(Slip::ClearsAllOfWork), _) => !unchanged,
            (Some(Slip::RuleOfLongFileClearsRest), Answer::Refused(1))
            | (Some(Slip::RuleOfNoJobClearsRest), Answer::Refused(3..=10))
            | (Some(Slip::WrongLengthClearsRest), Answer::Refused(13)) => true,
            _ => false,
        };
        let left = Left {
            unchanged,
            rest_cleared,
        };
        left.cleared(call.work_len)
    }
}
