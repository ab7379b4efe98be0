//! Random calls: small jobs with all kinds of plans, and calls with faults.
use super::memory::{Memory, Seen};
use crate::on_file::OnFile;
use crate::on_job::{JobLent, OnJob};
use dapohiru_generators::damage::Damaged;
use dapohiru_generators::faults::{possible, NUMBERS};
use dapohiru_generators::random::Random;
use dapohiru_generators::small;
use dapohiru_second::checking::{check, Call, Outcome};
use dapohiru_second::job::{Job, EVENT};
use dapohiru_second::slip::Slip;
use dapohiru_second::walk::Walks;

/// One call: a job, its file or one like it with a fault, a plan, and the length of the work buffer.
#[derive(Clone, Debug)]
pub struct Case {
    pub job: Job,
    pub on: JobLent,
    pub plan: Vec<u8>,
}

impl OnJob for Case {
    fn lent(&mut self) -> &mut JobLent {
        &mut self.on
    }
}

impl Case {
    /// A job and a plan, with a work buffer that is just long enough.
    pub fn of(job: &Job, plan: Vec<u8>) -> Self {
        Case {
            job: job.clone(),
            on: JobLent::of(job),
            plan,
        }
    }

    /// A damaged file, with this plan for the job that it holds and a work buffer that is long enough.
    pub fn of_damaged(random: &mut Random, damaged: &Damaged, plan: Vec<u8>) -> Self {
        Case {
            on: JobLent::of_damaged(random, damaged),
            ..Case::of(&damaged.job, plan)
        }
    }

    /// Gives the file or the work buffer the fault that this refusal names, 1 to 10.
    pub fn with_job_fault(mut self, random: &mut Random, number: u64) -> Self {
        self.on.put_fault(random, &self.job, number);
        self
    }

    /// Gives the plan another length.
    pub fn with_plan_length_fault(mut self, random: &mut Random) -> Self {
        let nodes = self.job.nodes.len();
        let len = random.pick(&[0, nodes - 1, nodes - 1, nodes + 1, nodes + 1, 512, 600]);
        if len != nodes {
            self.plan.resize(len, 0);
        } else {
            self.plan.push(0);
        }
        self
    }

    /// Gives one byte of the plan, if it has any, a value that it must not have.
    pub fn with_plan_byte_fault(mut self, random: &mut Random) -> Self {
        if self.plan.is_empty() {
            return self;
        }
        let node = random.place(self.plan.len());
        let is_event = self.job.nodes.get(node).is_some_and(|of| of.kind == EVENT);
        let above = random.pick(&[2, 2, 3, 128, 255]);
        self.plan[node] = if is_event || random.once_in(3) {
            above
        } else {
            1
        };
        self
    }

    /// What the second implementation leaves, with one slip or with none.
    fn outcome(&self, walks: &Walks, slip: Option<Slip>) -> Outcome {
        let call = Call {
            file_len: self.on.file.len(),
            held: self.on.held(walks),
            plan: &self.plan,
            work_len: self.on.work_len,
        };
        check(&call, slip)
    }

    /// What the second implementation wants to be seen, with one slip or with none.
    pub fn wanted(&self, walks: &Walks, slip: Option<Slip>) -> Seen {
        Seen::wanted(&self.outcome(walks, slip))
    }

    /// What is seen of the library, or in words how it differs from the second implementation with the
    /// slip that its walks have.
    pub fn compare(&self, memory: &mut Memory, walks: &Walks) -> Result<Seen, String> {
        let outcome = self.outcome(walks, walks.slip);
        match memory.call(&self.on.file, &self.plan, self.on.work_len) {
            Ok(seen) if seen == Seen::wanted(&outcome) => Ok(seen),
            Ok(seen) => Err(format!(
                "the library leaves {seen:?}, and the second implementation {outcome:?}; {}",
                self.words()
            )),
            Err(why) => Err(format!("{why}; {}", self.words())),
        }
    }

    /// The call in words; of a long file only its start.
    pub fn words(&self) -> String {
        format!(
            "work buffer of {} bytes, plan {:?}, {}",
            self.on.work_len,
            self.plan,
            self.on.words()
        )
    }
}

/// The calls of one job: it with each of its plans, and some calls with one fault or more.
pub fn cases(random: &mut Random, job: &Job) -> Vec<Case> {
    let plans = small::plans(random, job);
    let mut cases: Vec<_> = plans
        .iter()
        .map(|plan| {
            let case = Case::of(job, plan.clone()).with_zeros(random);
            match random.once_in(4) {
                true => case.with_longer_work(random),
                false => case,
            }
        })
        .collect();
    for _ in 0..4 {
        let plan = plans[random.place(plans.len())].clone();
        let case = Case::of(job, plan).with_zeros(random);
        let case = case.with_any_work(random);
        cases.push(faulty_case(random, case));
    }
    cases
}

/// A call with one fault or two, now and then more.
fn faulty_case(random: &mut Random, mut case: Case) -> Case {
    for _ in 0..random.pick(&[1, 1, 2, 2, 3]) {
        case = match random.below(8) {
            0 => case.with_job_fault(random, 1),
            1 => case.with_job_fault(random, 2),
            2..=3 if case.on.unread.is_none() => {
                let number = random.pick(&NUMBERS);
                let number = possible(&case.job, number);
                case.with_job_fault(random, number)
            }
            4..=5 => case.with_plan_length_fault(random),
            _ => case.with_plan_byte_fault(random),
        };
    }
    case
}
