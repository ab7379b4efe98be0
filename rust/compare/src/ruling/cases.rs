//! Random calls: jobs with buffers of the right lengths, and calls with faults.
use super::memory::{self, Memory, Said};
use crate::compared::Compared;
use crate::library::Library;
use crate::on_file::OnFile;
use crate::on_job::{JobLent, OnJob};
use crate::rulebuffer::{leaves, wrong_length};
use crate::seen::Seen;
use dapohiru_generators::damage::Damaged;
use dapohiru_generators::faults::{possible, NUMBERS};
use dapohiru_generators::random::Random;
use dapohiru_second::job::Job;
use dapohiru_second::rulebuffer::RULE;
use dapohiru_second::ruling::{take, Call};
use dapohiru_second::slip::Slip;

/// One call: a job, its file or one like it with a fault, and the lengths of the buffers.
#[derive(Clone, Debug)]
pub struct Case {
    pub job: Job,
    pub on: JobLent,
    pub rule_len: usize,
}

impl OnJob for Case {
    fn lent(&mut self) -> &mut JobLent {
        &mut self.on
    }
}

impl Case {
    /// A job, with buffers of the right lengths.
    pub fn of(job: &Job) -> Self {
        Case {
            job: job.clone(),
            on: JobLent::of(job),
            rule_len: RULE,
        }
    }

    /// A damaged file, with a rule buffer of the right length and a work buffer that is long enough.
    pub fn of_damaged(random: &mut Random, damaged: &Damaged) -> Self {
        Case {
            on: JobLent::of_damaged(random, damaged),
            ..Case::of(&damaged.job)
        }
    }

    /// Gives the call the fault that this refusal names: 1 to 10, or 13; 8 asks for a job with an edge. A fault of the
    /// file makes another file, so it comes before 1.
    pub fn with_fault(mut self, random: &mut Random, number: u64) -> Self {
        match number {
            13 => {
                let (states, symbols) = (self.job.states(), self.job.symbols as usize);
                self.rule_len = wrong_length(random, states, symbols);
            }
            _ => self.on.put_fault(random, &self.job, number),
        }
        self
    }
}

impl Compared for Case {
    type Memory = Memory;
    type Said = Said;
    type Seen = Seen;

    fn memory(library: Library) -> Memory {
        Memory::new(library)
    }

    fn said(&self, seen: &Seen) -> Said {
        Said::of(seen.number)
    }

    fn seen(&self, memory: &mut Memory) -> Result<Seen, String> {
        memory.call(&self.on.file, self.on.work_len, self.rule_len)
    }

    fn wanted(&self, slip: Option<Slip>) -> Seen {
        let call = Call {
            file_len: self.on.file.len(),
            held: self.on.held(&self.job),
            work_len: self.on.work_len,
            rule_len: self.rule_len,
        };
        memory::wanted(take(&call, slip))
    }

    fn leaves(seen: &Seen) -> String {
        leaves(seen)
    }

    fn words(&self) -> String {
        format!(
            "rule buffer of {} and work buffer of {} bytes, {}",
            self.rule_len,
            self.on.work_len,
            self.on.words()
        )
    }
}

/// The calls of one job: with work buffers of several lengths, and some with one fault or more.
pub fn cases(random: &mut Random, job: &Job) -> Vec<Case> {
    let mut cases = vec![
        Case::of(job).with_zeros(random),
        Case::of(job).with_zeros(random).with_longer_work(random),
    ];
    let case = Case::of(job).with_zeros(random).with_any_work(random);
    cases.push(case.with_fault(random, 13));
    for _ in 0..3 {
        let case = Case::of(job).with_zeros(random).with_any_work(random);
        cases.push(faulty_case(random, case));
    }
    cases
}

/// A call with one fault or two, now and then three.
fn faulty_case(random: &mut Random, mut case: Case) -> Case {
    for _ in 0..random.pick(&[1, 2, 2, 3]) {
        let number = match random.below(6) {
            0 => 1,
            1 => 2,
            2..=3 if case.on.unread.is_none() => possible(&case.job, random.pick(&NUMBERS)),
            _ => 13,
        };
        case = case.with_fault(random, number);
    }
    case
}
