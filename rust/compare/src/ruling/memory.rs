//! One call on memory whose every byte is looked at afterwards.
use crate::library::Library;
use crate::memory::{Buffers, Lent, PAST_FILE};
use crate::rulebuffer;
use crate::seen::Seen;
use dapohiru::numbers::ACCEPTED;
use dapohiru_generators::random::Random;
use dapohiru_second::ruling::{Answer, Outcome};

/// What a call answers.
#[derive(Clone, Copy, Debug, PartialEq, Eq, PartialOrd, Ord)]
pub enum Said {
    Taken,
    Refused(u64),
}

impl Said {
    /// What a call that returns this number answers.
    pub fn of(number: u64) -> Self {
        match number {
            ACCEPTED.. => Said::Taken,
            _ => Said::Refused(number),
        }
    }

    /// A rule, and every refusal.
    pub fn all() -> impl Iterator<Item = Said> {
        let refusals = (1..=10).chain([13]).map(Said::Refused);
        refusals.chain([Said::Taken])
    }
}

/// What the second implementation wants to be seen.
pub fn wanted(outcome: Outcome) -> Seen {
    let number = match outcome.answer {
        Answer::Taken([states, symbols, finals]) => {
            ACCEPTED + (states << 32) + (symbols << 16) + finals
        }
        Answer::Refused(number) => number,
    };
    Seen::wanted(number, outcome)
}

/// The memory that calls are made on.
pub struct Memory {
    library: Library,
    buffers: Buffers,
    rule: Lent,
}

impl Memory {
    /// Memory for calls of this library.
    pub fn new(library: Library) -> Self {
        let mut buffers = Buffers::new(1);
        Memory {
            library,
            rule: rulebuffer::lent(&mut buffers.random),
            buffers,
        }
    }

    /// Places the next buffers by this seed.
    pub fn begin(&mut self, seed: u64) {
        self.buffers.random = Random(seed);
    }

    /// Calls the library, and looks at every byte that it could reach.
    pub fn call(&mut self, file: &[u8], work_len: usize, rule_len: usize) -> Result<Seen, String> {
        self.call_before(file, PAST_FILE, work_len, rule_len)
    }

    /// The same, with these bytes past the file.
    pub fn call_before(
        &mut self,
        file: &[u8],
        past: &[u8],
        work_len: usize,
        rule_len: usize,
    ) -> Result<Seen, String> {
        self.buffers.fresh(work_len, file, past);
        self.rule.fresh(&mut self.buffers.random, rule_len);
        let Buffers { file, work, .. } = &mut self.buffers;
        let number = (self.library.rule)(file.bytes(), work.bytes(), self.rule.bytes());
        let called = format!("a rule buffer of {rule_len} bytes");
        Seen::after(number, &self.buffers, &self.rule, &called)
    }
}
