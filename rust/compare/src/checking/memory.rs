//! One call on memory whose every byte is looked at afterwards.
use crate::library::Library;
use crate::memory::{Buffers, Lent, PAST_FILE};
use dapohiru::numbers::ACCEPTED;
use dapohiru_generators::random::Random;
use dapohiru_second::checking::{Answer, Outcome};

/// What a call answers.
#[derive(Clone, Copy, Debug, PartialEq, Eq, PartialOrd, Ord)]
pub enum Said {
    Faithful,
    Different,
    Refused(u64),
}

/// What is seen of a call: its answer, and how many bytes of the work buffer it leaves as zero. The
/// bytes past them, the file and the plan are as they were.
#[derive(Clone, Copy, Debug, PartialEq, Eq)]
pub struct Seen {
    pub said: Said,
    pub cleared: usize,
}

impl Said {
    /// What a call that returns this number answers.
    pub fn of(number: u64) -> Self {
        match number.checked_sub(ACCEPTED) {
            Some(0) => Said::Faithful,
            Some(1) => Said::Different,
            _ => Said::Refused(number),
        }
    }

    /// Both verdicts and every refusal.
    pub fn all() -> impl Iterator<Item = Said> {
        let refusals = (1..=12).map(Said::Refused);
        refusals.chain([Said::Faithful, Said::Different])
    }
}

impl Seen {
    /// What the second implementation wants to be seen.
    pub fn wanted(outcome: &Outcome) -> Self {
        let said = match outcome.answer {
            Answer::Faithful => Said::Faithful,
            Answer::Different(_) => Said::Different,
            Answer::Refused(number) => Said::Refused(number),
        };
        Seen {
            said,
            cleared: outcome.cleared,
        }
    }
}

/// The memory that calls are made on.
pub struct Memory {
    library: Library,
    buffers: Buffers,
    plan: Lent,
}

impl Memory {
    /// Memory for calls of this library.
    pub fn new(library: Library) -> Self {
        let mut buffers = Buffers::new(1);
        Memory {
            library,
            plan: Lent::new(&mut buffers.random, 0, 1),
            buffers,
        }
    }

    /// Places the next buffers by this seed.
    pub fn begin(&mut self, seed: u64) {
        self.buffers.random = Random(seed);
    }

    /// Calls the library, and looks at every byte that it could reach.
    pub fn call(&mut self, file: &[u8], plan: &[u8], work_len: usize) -> Result<Seen, String> {
        self.buffers.fresh(work_len, file, PAST_FILE);
        self.plan.holding(plan, &[]);
        let Buffers { file, work, .. } = &mut self.buffers;
        let number = (self.library.check)(file.bytes(), self.plan.bytes(), work.bytes());
        let said = Said::of(number);
        self.buffers.keeps_file(&said)?;
        if !self.plan.is_unchanged() {
            return Err(format!("{said:?} changes the plan or bytes beside it"));
        }
        let cleared = self.buffers.cleared(&said)?;
        Ok(Seen { said, cleared })
    }
}
