//! One call on memory whose every byte is looked at afterwards.
use crate::library::Library;
use crate::memory::{Buffers, Lent, PAST_FILE};
use crate::seen::Seen;
use dapohiru::numbers::ACCEPTED;
use dapohiru_generators::random::Random;
use dapohiru_second::serving::{Answer, Outcome, Service};

/// What a call answers.
#[derive(Clone, Copy, Debug, PartialEq, Eq, PartialOrd, Ord)]
pub enum Said {
    Planned,
    Listed,
    Refused(u64),
}

impl Said {
    /// What a call that returns this number answers.
    pub fn of(service: Service, number: u64) -> Self {
        match service {
            _ if number < ACCEPTED => Said::Refused(number),
            Service::Plan => Said::Planned,
            Service::List => Said::Listed,
        }
    }

    /// Both accepted answers and every refusal.
    pub fn all() -> impl Iterator<Item = Said> {
        let refusals = (1..=10).map(Said::Refused);
        refusals.chain([Said::Planned, Said::Listed])
    }
}

/// What the second implementation wants to be seen.
pub fn wanted(outcome: Outcome) -> Seen {
    let number = match outcome.answer {
        Answer::Planned([points, watched, passes]) => {
            ACCEPTED + (points << 32) + (watched << 16) + passes
        }
        Answer::Listed(len) => ACCEPTED + len as u64,
        Answer::Refused(number) => number,
    };
    Seen::wanted(number, outcome)
}

/// The longest plan or listing buffer that is lent.
pub const MOST_LENT: usize = 40_000;

/// The memory that calls are made on.
pub struct Memory {
    library: Library,
    buffers: Buffers,
    lent: Lent,
}

impl Memory {
    /// Memory for calls of this library.
    pub fn new(library: Library) -> Self {
        let mut buffers = Buffers::new(1);
        Memory {
            library,
            // neither a plan nor a listing has a byte above 127, so that every byte written is seen
            lent: Lent::new(&mut buffers.random, MOST_LENT, 128),
            buffers,
        }
    }

    /// Places the next buffers by this seed.
    pub fn begin(&mut self, seed: u64) {
        self.buffers.random = Random(seed);
    }

    /// Calls the library, and looks at every byte that it could reach.
    pub fn call(
        &mut self,
        service: Service,
        file: &[u8],
        work_len: usize,
        lent_len: usize,
    ) -> Result<Seen, String> {
        self.buffers.fresh(work_len, file, PAST_FILE);
        self.lent.fresh(&mut self.buffers.random, lent_len);
        let Buffers { file, work, .. } = &mut self.buffers;
        let (file, work, lent) = (file.bytes(), work.bytes(), self.lent.bytes());
        let number = self.library.serve(service, file, work, lent);
        let called = format!("a plan or listing buffer of {lent_len} bytes");
        Seen::after(number, &self.buffers, &self.lent, &called)
    }
}
