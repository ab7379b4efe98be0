//! Calls on buffers that are allocations of their own size, with the answers counted.
use crate::tally::Tally;
use dapohiru::numbers::ACCEPTED;
use dapohiru_compare::compared::Compared;
use dapohiru_compare::library::CALLS;
use dapohiru_compare::on_job::JobLent;
use dapohiru_compare::pricing::{By, Case};
use dapohiru_compare::seen::Seen;
use dapohiru_compare::{arrivals, checking, expression, rows, ruling, serving};
use dapohiru_generators::random::Random;
use dapohiru_generators::samples::pair;
use dapohiru_generators::{prices, volumes};
use dapohiru_second::job::Job;
use dapohiru_second::pricing::Answer;
use dapohiru_second::reading::{self, WORK};
use dapohiru_second::rows::Given;
use dapohiru_second::serving::Service;

/// An allocation that holds these bytes and no more.
pub fn exact(bytes: &[u8]) -> Box<[u8]> {
    bytes.into()
}

/// An allocation of so many bytes.
pub fn filled(len: usize, byte: u8) -> Box<[u8]> {
    vec![byte; len].into_boxed_slice()
}

/// What stands in a rule buffer before a call; no next state is as high.
const UNWRITTEN: u8 = 99;

/// Calls, with the answers counted.
pub struct Calls {
    /// Makes the volume files, price files and lengths of rule buffers; all else is made without it.
    lines: Random,
    pub tally: Tally,
}

impl Calls {
    /// No call so far, and volume files, price files and lengths of rule buffers from this seed on.
    pub fn new(seed: u64) -> Self {
        Calls {
            lines: Random(seed),
            tally: Tally::default(),
        }
    }

    /// Plans or lists with buffers of these lengths; gives the number.
    pub fn serve(&mut self, service: Service, file: &[u8], work: usize, lent: usize) -> u64 {
        let (file, mut work, mut lent) = (exact(file), filled(work, 9), filled(lent, 7));
        let number = CALLS.serve(service, &file, &mut work, &mut lent);
        self.tally.add_served(serving::Said::of(service, number));
        number
    }

    /// Checks with buffers of these lengths; gives the number.
    pub fn check(&mut self, file: &[u8], plan: &[u8], work: usize) -> u64 {
        let (file, plan, mut work) = (exact(file), exact(plan), filled(work, 9));
        let number = (CALLS.check)(&file, &plan, &mut work);
        self.tally.add_checked(checking::Said::of(number));
        number
    }

    /// Takes the rule of this job, or of a file that deserves this refusal, with buffers of these lengths, as the
    /// second implementation does; gives the number.
    pub fn rule(
        &mut self,
        file: &[u8],
        held: Result<&Job, u64>,
        work: usize,
        rule: usize,
    ) -> Result<u64, String> {
        let case = ruling::Case {
            on: JobLent {
                file: file.to_vec(),
                unread: held.err(),
                work_len: work,
            },
            rule_len: rule,
            ..ruling::Case::of(held.unwrap_or(&pair()))
        };
        let wanted = case.wanted(None);
        let (file, mut work, mut rule) = (exact(file), filled(work, 9), filled(rule, UNWRITTEN));
        let number = (CALLS.rule)(&file, &mut work, &mut rule);
        self.tally.add_taken(ruling::Said::of(number));
        as_wanted(number, &rule, wanted, || case.words())
    }

    /// Makes a rule from rows as the second implementation does; gives the number.
    pub fn rows(&mut self, case: &rows::Case) -> Result<u64, String> {
        let rows::Case {
            text,
            given,
            rule_len,
        } = case;
        let (text, mut rule) = (exact(text), filled(*rule_len, UNWRITTEN));
        let Given {
            states,
            symbols,
            finals,
        } = *given;
        let number = (CALLS.rows)(&text, states, symbols, finals, &mut rule);
        self.tally.add_made(number);
        as_wanted(number, &rule, case.wanted(None), || case.words())
    }

    /// Makes a rule from an expression as the second implementation does; gives the number.
    pub fn expression(&mut self, case: &expression::Case) -> Result<u64, String> {
        let (text, mut rule) = (exact(&case.text), filled(case.rule_len, UNWRITTEN));
        let number = (CALLS.expression)(&text, case.symbols, &mut rule);
        self.tally.add_expressed(number);
        as_wanted(number, &rule, case.wanted(None), || case.words())
    }

    /// Makes a call on edges as the second implementation does; gives the number. The lists that it is made on are copies
    /// of their own sizes.
    pub fn on_edges(&mut self, case: &arrivals::Case) -> Result<u64, String> {
        let seen = case.compare(&mut CALLS.clone(), None)?;
        self.tally.add_on_edges(case.said(&seen));
        Ok(seen.0)
    }

    /// Prices a plan, by a price file if there is one, each buffer an allocation of its own size; gives the number.
    pub fn price(
        &mut self,
        file: &[u8],
        plan: &[u8],
        volumes: &[u8],
        prices: Option<&[u8]>,
    ) -> u64 {
        let (file, plan, volumes) = (exact(file), exact(plan), exact(volumes));
        let (by, number) = match prices.map(exact) {
            None => (By::House, (CALLS.price)(&file, &plan, &volumes)),
            Some(prices) => {
                let number = (CALLS.price_by)(&file, &plan, &volumes, &prices);
                (By::File, number)
            }
        };
        let cents = number.checked_sub(ACCEPTED).map(Answer::Cents);
        let answer = cents.unwrap_or(Answer::Refused(number));
        self.tally.add_priced(by, answer);
        number
    }

    /// A file in the six calls that take a job file, of which each is refused as it should be, or accepted; a rule and
    /// a price are those of the second implementation.
    pub fn file(&mut self, random: &mut Random, file: &[u8]) -> Result<(), String> {
        let read = reading::job(file);
        let (plan, of_plan) = match &read {
            Ok(job) => plan(random, job),
            Err(_) => (vec![1; 3], None),
        };
        let refusal = read.as_ref().err().copied();
        let numbers = [
            self.serve(Service::Plan, file, WORK, Service::Plan.least()),
            self.serve(Service::List, file, WORK, Service::List.least()),
            self.check(file, &plan, WORK),
        ];
        let wanted = [refusal, refusal, refusal.or(of_plan)];
        let seen = numbers.map(|number| (number < ACCEPTED).then_some(number));
        if seen == wanted {
            let len = self.lines.pick(&[256, 256, 256, 255, 257, 0]);
            self.rule(file, read.as_ref().map_err(|&number| number), WORK, len)?;
            return self.priced(file, read, plan);
        }
        Err(format!(
            "refusals {seen:?}, and {wanted:?} wanted; plan {plan:?}, file {}",
            file.escape_ascii()
        ))
    }

    /// The price of a plan by the house table, and by a price file, with files of numbered lines that are sound,
    /// damaged or have a fault. The file holds this job, or deserves this refusal.
    fn priced(&mut self, file: &[u8], read: Result<Job, u64>, plan: Vec<u8>) -> Result<(), String> {
        let unread = read.as_ref().err().copied();
        let job = read.unwrap_or_else(|_| pair());
        let random = &mut self.lines;
        let nodes = job.nodes.len();
        let volumes = match random.below(4) {
            0 => volumes::refused(random, nodes),
            1 => volumes::damaged(random, nodes),
            _ => volumes::any(random, nodes),
        };
        let prices = match random.below(4) {
            0 => prices::refused(random),
            1 => prices::damaged(random),
            _ => prices::any(random),
        };
        let mut case = Case::of(&job, plan, volumes);
        let on = &mut case.checking.on;
        (on.file, on.unread) = (file.to_vec(), unread);
        self.same_price(&case)?;
        self.same_price(&case.by(prices))
    }

    /// Prices as the second implementation does.
    fn same_price(&mut self, case: &Case) -> Result<(), String> {
        let wanted = match case.wanted(None) {
            Answer::Cents(cents) => ACCEPTED + cents,
            Answer::Refused(number) => number,
        };
        let checking::Case { on, plan, .. } = &case.checking;
        let number = self.price(&on.file, plan, &case.volumes, case.prices.as_deref());
        if number == wanted {
            return Ok(());
        }
        Err(format!(
            "{number} of pricing, and {wanted} wanted; {}",
            case.words()
        ))
    }
}

/// The number of a call, if it and the rule buffer that the call leaves are as wanted; else both, with the call in
/// words.
fn as_wanted(
    number: u64,
    rule: &[u8],
    wanted: Seen,
    words: impl FnOnce() -> String,
) -> Result<u64, String> {
    let mut bytes = filled(rule.len(), UNWRITTEN);
    for (byte, written) in bytes.iter_mut().zip(wanted.written) {
        *byte = written.unwrap_or(UNWRITTEN);
    }
    if (number, rule) == (wanted.number, &bytes) {
        return Ok(number);
    }
    Err(format!(
        "{number:#x} with rule {rule:?}, and {:#x} with rule {bytes:?} wanted; {}",
        wanted.number,
        words()
    ))
}

/// A plan to be checked, with the refusal that it deserves.
fn plan(random: &mut Random, job: &Job) -> (Vec<u8>, Option<u64>) {
    let mut plan = match random.below(3) {
        0 => job.plan_of(&[]),
        _ => job.all_watched(),
    };
    match random.below(8) {
        0 => {
            let place = random.place(plan.len());
            plan[place] = random.pick(&[2, 128, 255]);
            (plan, Some(12))
        }
        1 => {
            plan.push(0);
            (plan, Some(11))
        }
        2 => {
            plan.pop();
            (plan, Some(11))
        }
        _ => (plan, None),
    }
}
