//! Random calls: jobs with plans, volume files and price files of all kinds, and calls with faults.
use super::memory::Memory;
use crate::checking;
use crate::memory::start_of;
use crate::on_file::OnFile;
use dapohiru_generators::faults::{possible, NUMBERS};
use dapohiru_generators::random::Random;
use dapohiru_generators::samples::points;
use dapohiru_generators::{prices, small, volumes};
use dapohiru_second::job::Job;
use dapohiru_second::numbered::{PRICES, VOLUMES};
use dapohiru_second::pricing::{price, Answer, Call, SYMBOLS};
use dapohiru_second::slip::Slip;

/// What a call goes by.
#[derive(Clone, Copy, Debug, PartialEq, Eq)]
pub enum By {
    /// The house table.
    House,
    /// A price file, which it is lent.
    File,
}

impl By {
    pub const BOTH: [By; 2] = [By::House, By::File];

    /// Any price file, if it goes by one.
    pub fn any_prices(self, random: &mut Random) -> Option<Vec<u8>> {
        match self {
            By::House => None,
            By::File => Some(prices::any(random)),
        }
    }

    /// The refusals of the files of numbered lines that the call is lent.
    fn refusals_of_lines(self) -> &'static [u64] {
        match self {
            By::House => &[16],
            By::File => &[16, 28],
        }
    }
}

/// One call: job, file and plan as a call of the plan check has them, a volume file, and a price file in the call
/// that gets one. The plan check's work buffer is not lent.
#[derive(Clone, Debug)]
pub struct Case {
    pub checking: checking::Case,
    pub volumes: Vec<u8>,
    pub prices: Option<Vec<u8>>,
}

impl Case {
    /// A job, a plan and a volume file, as they are.
    pub fn of(job: &Job, plan: Vec<u8>, volumes: Vec<u8>) -> Self {
        Case {
            checking: checking::Case::of(job, plan),
            volumes,
            prices: None,
        }
    }

    /// A job, a plan, any volume file for it and any price file, with any zeros in all files.
    pub fn any(random: &mut Random, job: &Job, plan: Vec<u8>, by: By) -> Self {
        Case {
            checking: checking::Case::of(job, plan).with_zeros(random),
            volumes: volumes::any(random, job.nodes.len()),
            prices: by.any_prices(random),
        }
    }

    /// The greatest price that there is: every node of 512 is a watched point, and each has as many events as there
    /// may be, at the greatest price.
    pub fn greatest() -> Self {
        let job = points(15, 512);
        let volumes = volumes::file(&vec![VOLUMES.most; job.nodes.len()]);
        let case = Case::of(&job, job.all_watched(), volumes);
        case.by(prices::file(&[PRICES.most; SYMBOLS]))
    }

    /// The house table, or a price file.
    pub fn goes_by(&self) -> By {
        match self.prices {
            None => By::House,
            Some(_) => By::File,
        }
    }

    /// The same call with this price file.
    pub fn by(mut self, prices: Vec<u8>) -> Self {
        self.prices = Some(prices);
        self
    }

    /// Gives the call the fault that this refusal names: 1, 3 to 12, 16 or 28; 8 asks for a job with an edge. A
    /// fault of the file makes another file, so it comes before 1.
    pub fn with_fault(mut self, random: &mut Random, number: u64) -> Self {
        let case = self.checking;
        self.checking = match number {
            11 => case.with_plan_length_fault(random),
            12 => case.with_plan_byte_fault(random),
            16 => {
                self.volumes = volumes::refused(random, case.job.nodes.len());
                case
            }
            28 => {
                self.prices = Some(prices::refused(random));
                case
            }
            _ => case.with_job_fault(random, number),
        };
        self
    }

    /// What the second implementation answers, with one slip or with none.
    pub fn wanted(&self, slip: Option<Slip>) -> Answer {
        let checking::Case { job, on, plan } = &self.checking;
        let call = Call {
            file_len: on.file.len(),
            held: on.held(job),
            plan,
            volumes: &self.volumes,
            prices: self.prices.as_deref(),
        };
        price(&call, slip)
    }

    /// The answer of the library, or in words what it changes.
    pub fn answer(&self, memory: &mut Memory) -> Result<Answer, String> {
        let checking::Case { on, plan, .. } = &self.checking;
        memory.call(&on.file, plan, &self.volumes, self.prices.as_deref())
    }

    /// The answer of the library, or in words how it differs from the second implementation with this slip or
    /// with none.
    pub fn compare(&self, memory: &mut Memory, slip: Option<Slip>) -> Result<Answer, String> {
        let wanted = self.wanted(slip);
        match self.answer(memory) {
            Ok(answer) if answer == wanted => Ok(answer),
            Ok(answer) => Err(format!(
                "the library answers {answer:?}, and the second implementation {wanted:?}; {}",
                self.words()
            )),
            Err(why) => Err(format!("{why}; {}", self.words())),
        }
    }

    /// The call in words; of long files only their starts.
    pub fn words(&self) -> String {
        let checking::Case { on, plan, .. } = &self.checking;
        let mut words = format!("plan {plan:?}");
        let files = [
            ("price file", self.prices.as_ref()),
            ("volume file", Some(&self.volumes)),
            ("file", Some(&on.file)),
        ];
        for (name, file) in files {
            if let Some(file) = file {
                words += &format!(", {name} of {} bytes:\n{}", file.len(), start_of(file));
            }
        }
        words
    }
}

/// The refusal that an answer is, if it is one.
pub fn refused(answer: Answer) -> Option<u64> {
    match answer {
        Answer::Cents(_) => None,
        Answer::Refused(number) => Some(number),
    }
}

/// The calls of one job by the house table and by price files.
pub fn cases(random: &mut Random, job: &Job) -> Vec<Case> {
    let mut plans = small::plans(random, job);
    random.shuffle(&mut plans);
    plans.truncate(4);
    plans.push(job.all_watched());
    let both = By::BOTH.map(|by| cases_by(random, job, &plans, by));
    both.concat()
}

/// The calls of one job with these plans: with any files, with a damaged file, and with one fault or more.
fn cases_by(random: &mut Random, job: &Job, plans: &[Vec<u8>], by: By) -> Vec<Case> {
    let mut cases: Vec<_> = plans
        .iter()
        .map(|plan| Case::any(random, job, plan.clone(), by))
        .collect();
    let any = |random: &mut Random| {
        let plan = plans[random.place(plans.len())].clone();
        Case::any(random, job, plan, by)
    };
    for &number in by.refusals_of_lines() {
        let mut case = any(random);
        match number {
            28 => case.prices = Some(prices::damaged(random)),
            _ => case.volumes = volumes::damaged(random, job.nodes.len()),
        }
        cases.push(case);
    }
    for _ in 0..4 {
        let case = any(random);
        cases.push(faulty_case(random, case, by));
    }
    cases
}

/// A call with one fault or two, now and then more.
fn faulty_case(random: &mut Random, mut case: Case, by: By) -> Case {
    for _ in 0..random.pick(&[1, 1, 2, 2, 3]) {
        let number = match random.below(10) {
            0 => 1,
            1..=2 if case.checking.on.unread.is_none() => {
                possible(&case.checking.job, random.pick(&NUMBERS))
            }
            3 => 11,
            4..=5 => 12,
            _ => random.pick(by.refusals_of_lines()),
        };
        case = case.with_fault(random, number);
    }
    case
}
