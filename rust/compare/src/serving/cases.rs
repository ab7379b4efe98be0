//! Random calls of planning and listing: jobs with buffers that are long enough, and calls with faults.
use super::memory::{self, Memory, Said, MOST_LENT};
use crate::on_file::OnFile;
use crate::on_job::{JobLent, OnJob};
use crate::seen::{held_to, Seen};
use dapohiru_generators::damage::Damaged;
use dapohiru_generators::faults::{possible, NUMBERS};
use dapohiru_generators::random::Random;
use dapohiru_second::job::Job;
use dapohiru_second::serving::{serve, Call, Given, Service};
use dapohiru_second::slip::Slip;

/// One call: a file of a job or one like it with a fault, and the lengths of the buffers.
#[derive(Clone, Debug)]
pub struct Case {
    pub service: Service,
    pub on: JobLent,
    pub lent_len: usize,
}

impl OnJob for Case {
    fn lent(&mut self) -> &mut JobLent {
        &mut self.on
    }
}

impl Case {
    /// A job, with buffers that are just long enough.
    pub fn of(service: Service, job: &Job) -> Self {
        Case {
            service,
            on: JobLent::of(job),
            lent_len: service.least(),
        }
    }

    /// A damaged file, with a plan or listing buffer that is just long enough and any work buffer that is.
    pub fn of_damaged(random: &mut Random, service: Service, damaged: &Damaged) -> Self {
        Case {
            on: JobLent::of_damaged(random, damaged),
            ..Case::of(service, &damaged.job)
        }
    }

    /// Gives the call the fault that this refusal names; 8 asks for a job with an edge. A fault of the
    /// file makes another file, so it comes first.
    pub fn with_fault(mut self, random: &mut Random, job: &Job, number: u64) -> Self {
        let least = self.service.least();
        match number {
            2 if !random.once_in(2) => {
                // enough for the plan or the text, too
                let some = random.pick(&[0, 1, job.nodes.len(), 500, 511]);
                self.lent_len = random.pick(&[some, some, least / 2, least - 1, least - 1]);
            }
            _ => self.on.put_fault(random, job, number),
        }
        self
    }

    /// What the second implementation wants to be seen, with one slip or with none.
    pub fn wanted(&self, given: &Given, slip: Option<Slip>) -> Seen {
        let call = Call {
            service: self.service,
            file_len: self.on.file.len(),
            held: self.on.held(given),
            work_len: self.on.work_len,
            lent_len: self.lent_len,
        };
        memory::wanted(serve(&call, slip))
    }

    /// What is seen of the library, or in words how it differs from the second implementation with the
    /// slip that what is given has.
    pub fn compare(&self, memory: &mut Memory, given: &Given) -> Result<Seen, String> {
        let wanted = self.wanted(given, given.slip);
        let seen = memory.call(self.service, &self.on.file, self.on.work_len, self.lent_len);
        held_to(&wanted, seen, leaves, || self.words())
    }

    /// What a call that leaves this answers.
    pub fn said(&self, seen: &Seen) -> Said {
        Said::of(self.service, seen.number)
    }

    /// The call in words; of a long file only its start.
    fn words(&self) -> String {
        format!(
            "{:?}, buffers of {} and {} bytes, {}",
            self.service,
            self.lent_len,
            self.on.work_len,
            self.on.words()
        )
    }
}

/// What a call leaves, in words; a byte that is as it was is a dot.
fn leaves(seen: &Seen) -> String {
    let Seen {
        number,
        written,
        cleared,
    } = seen;
    let shown = |byte: &Option<u8>| match *byte {
        None => ".".to_string(),
        Some(byte @ (0 | 1)) => byte.to_string(),
        Some(b'\n') => "\n".to_string(),
        Some(byte) => byte.escape_ascii().to_string(),
    };
    let bytes: String = written.iter().map(shown).collect();
    format!("number {number:#x}, {cleared} bytes cleared, written {bytes}")
}

/// The calls of one job: both, with buffers of several lengths, and some with one fault or more.
pub fn cases(random: &mut Random, job: &Job) -> Vec<Case> {
    let mut cases: Vec<_> = Service::BOTH
        .map(|service| Case::of(service, job).with_zeros(random))
        .map(|case| case.with_any_work(random))
        .into();
    for case in &mut cases {
        let least = case.lent_len;
        case.lent_len = random.pick(&[least, least, least + 1, least + 64, MOST_LENT]);
    }
    for service in Service::BOTH {
        let case = Case::of(service, job).with_zeros(random);
        let case = case.with_any_work(random);
        cases.push(faulty_case(random, job, case));
    }
    cases
}

/// A call with one fault or two.
fn faulty_case(random: &mut Random, job: &Job, mut case: Case) -> Case {
    let of_file = random.once_in(2);
    if of_file {
        let number = random.pick(&NUMBERS);
        case = case.with_fault(random, job, possible(job, number));
    }
    if !of_file || random.once_in(2) {
        for _ in 0..random.pick(&[1, 1, 2]) {
            let number = random.between(1, 2);
            case = case.with_fault(random, job, number);
        }
    }
    case
}
