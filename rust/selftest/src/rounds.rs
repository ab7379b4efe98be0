//! One round: random calls that its seed and number determine, each beside the second implementation.
use crate::arguments::Slips;
use crate::tally::Tally;
use dapohiru::numbers::ACCEPTED;
use dapohiru_compare::arrivals::{self, Run};
use dapohiru_compare::checking;
use dapohiru_compare::compared::Compared;
use dapohiru_compare::expression;
use dapohiru_compare::library::GUARDED;
use dapohiru_compare::on_file::OnFile;
use dapohiru_compare::pricing;
use dapohiru_compare::promise;
use dapohiru_compare::rows;
use dapohiru_compare::ruling;
use dapohiru_compare::serving;
use dapohiru_compare::step::compare;
use dapohiru_generators::arrivals as graphs;
use dapohiru_generators::damage::Damaged;
use dapohiru_generators::events::Call;
use dapohiru_generators::large::{self, Order};
use dapohiru_generators::mixed;
use dapohiru_generators::random::Random;
use dapohiru_generators::sized::{self, FULL};
use dapohiru_generators::small;
use dapohiru_generators::spread::Spread;
use dapohiru_generators::zeros::filled;
use dapohiru_generators::{prices, volumes};
use dapohiru_second::arrivals::Lists;
use dapohiru_second::job::Job;
use dapohiru_second::numbered::VOLUMES;
use dapohiru_second::serving::{Given, Service};
use dapohiru_second::step::Second;
use dapohiru_second::walk::Walks;

/// What rounds use again and again.
pub struct Rounds {
    seed: u64,
    slips: Slips,
    serving: serving::Memory,
    checking: checking::Memory,
    pricing: pricing::Memory,
    ruling: ruling::Memory,
    rows: rows::Memory,
    expressions: expression::Memory,
    /// Makes the volume files and price files of a round and what is priced with them; the other calls are made
    /// without it.
    lines: Random,
    pub tally: Tally,
}

impl Rounds {
    /// The rounds of a seed.
    pub fn new(seed: u64, slips: Slips) -> Self {
        Rounds {
            seed,
            slips,
            serving: serving::Memory::new(GUARDED),
            checking: checking::Memory::new(GUARDED),
            pricing: pricing::Memory::new(GUARDED),
            ruling: ruling::Memory::new(GUARDED),
            rows: rows::Memory::new(GUARDED),
            expressions: expression::Memory::new(GUARDED),
            lines: Random(0),
            tally: Tally::default(),
        }
    }

    /// Makes one round; says in words how the library differs.
    pub fn make(&mut self, number: u64) -> Result<(), String> {
        let mut random = Random(self.seed ^ Random(number).number());
        self.lines = Random(!random.0);
        self.serving.begin(random.number());
        self.checking.begin(random.number());
        self.ruling.begin(random.number());
        let random = &mut random;
        match number % 8 {
            0 | 4 => {
                let job = mixed::small_job(random);
                self.serve(random, &job)?;
                self.rule(random, &job)
            }
            1 | 5 => {
                let job = small::job(random);
                self.check(random, &job)?;
                self.price(&job)?;
                self.rule(random, &job)
            }
            2 => self.damaged(random),
            3 => {
                self.step(random)?;
                self.rule_rows(random)?;
                self.expressions(random)?;
                self.edges(random)
            }
            6 => self.walk(random),
            _ if number % 1_024 == 1_023 => self.large(random),
            _ => self.spread(random),
        }
    }

    /// Compares calls of planning and listing.
    fn serve_cases(&mut self, job: &Job, cases: &[serving::Case]) -> Result<Given, String> {
        let given = Given::of(&Walks::new(job, self.slips.walks));
        for case in cases {
            let seen = case.compare(&mut self.serving, &given)?;
            self.tally.add_served(case.said(&seen));
        }
        Ok(given)
    }

    /// Compares calls of the plan check.
    fn check_cases(&mut self, job: &Job, cases: &[checking::Case]) -> Result<(), String> {
        let walks = Walks::new(job, self.slips.walks);
        for case in cases {
            let seen = case.compare(&mut self.checking, &walks)?;
            self.tally.add_checked(seen.said);
        }
        Ok(())
    }

    /// Planning and listing of a job, some of them with faults.
    fn serve(&mut self, random: &mut Random, job: &Job) -> Result<(), String> {
        let cases = serving::cases(random, job);
        self.serve_cases(job, &cases).map(drop)
    }

    /// The plan check of a job under all its plans or many of them, some with faults.
    fn check(&mut self, random: &mut Random, job: &Job) -> Result<(), String> {
        let cases = checking::cases(random, job);
        self.check_cases(job, &cases)
    }

    /// Compares calls of pricing.
    fn price_cases(&mut self, cases: &[pricing::Case]) -> Result<(), String> {
        for case in cases {
            let answer = case.compare(&mut self.pricing, self.slips.walks)?;
            self.tally.add_priced(case.goes_by(), answer);
        }
        Ok(())
    }

    /// Plans of a job with volume files and price files, some of them damaged or with faults.
    fn price(&mut self, job: &Job) -> Result<(), String> {
        let cases = pricing::cases(&mut self.lines, job);
        self.price_cases(&cases)
    }

    /// Compares the prices of a plan under a volume file, by the house table and by any price file.
    fn price_both(&mut self, checking: &checking::Case, volumes: Vec<u8>) -> Result<(), String> {
        let by_house = pricing::Case {
            checking: checking.clone(),
            volumes,
            prices: None,
        };
        let by_file = by_house.clone().by(prices::any(&mut self.lines));
        self.price_cases(&[by_house, by_file])
    }

    /// Compares calls for the rule of a job.
    fn rule_cases(&mut self, cases: &[ruling::Case]) -> Result<(), String> {
        for case in cases {
            let seen = case.compare(&mut self.ruling, self.slips.walks)?;
            self.tally.add_taken(ruling::Said::of(seen.number));
        }
        Ok(())
    }

    /// The rule of a job, with buffers of several lengths, some of the calls with faults.
    fn rule(&mut self, random: &mut Random, job: &Job) -> Result<(), String> {
        let cases = ruling::cases(random, job);
        self.rule_cases(&cases)
    }

    /// A damaged file in the six calls that take a job file; the second reader says what it deserves.
    fn damaged(&mut self, random: &mut Random) -> Result<(), String> {
        for _ in 0..8 {
            let damaged = Damaged::random(random);
            let cases =
                Service::BOTH.map(|service| serving::Case::of_damaged(random, service, &damaged));
            self.rule_cases(&[ruling::Case::of_damaged(random, &damaged)])?;
            let job = &damaged.job;
            self.serve_cases(job, &cases)?;
            let plan = match random.below(2) {
                0 => job.all_watched(),
                _ => job.plan_of(&[]),
            };
            let case = checking::Case::of_damaged(random, &damaged, plan);
            self.check_cases(job, std::slice::from_ref(&case))?;
            let volumes = volumes::any(&mut self.lines, job.nodes.len());
            self.price_both(&case, volumes)?;
        }
        Ok(())
    }

    /// Calls of the event step, valid, damaged and at the limits.
    fn step(&mut self, random: &mut Random) -> Result<(), String> {
        for _ in 0..512 {
            let second = Second {
                slip: self.slips.step,
            };
            let answer = compare(GUARDED, second, &Call::any(random))?;
            self.tally.add_stepped(answer);
        }
        Ok(())
    }

    /// Rules made from rows, few and many, sound, damaged and with faults.
    fn rule_rows(&mut self, random: &mut Random) -> Result<(), String> {
        self.rows.begin(random.number());
        for _ in 0..4 {
            for case in rows::cases(random) {
                let seen = case.compare(&mut self.rows, self.slips.walks)?;
                self.tally.add_made(seen.number);
            }
        }
        Ok(())
    }

    /// Rules made from expressions, sound, damaged and with faults.
    fn expressions(&mut self, random: &mut Random) -> Result<(), String> {
        self.expressions.begin(random.number());
        for _ in 0..4 {
            for case in expression::cases(random) {
                let seen = case.compare(&mut self.expressions, self.slips.walks)?;
                self.tally.add_expressed(seen.number);
            }
        }
        Ok(())
    }

    /// Calls on edges that are there and not, on sound lists and on others; and one after another on the same lists.
    fn edges(&mut self, random: &mut Random) -> Result<(), String> {
        for case in arrivals::cases(random) {
            self.on_edges(&case)?;
        }
        let nodes = graphs::nodes(random);
        let count = graphs::count(random, nodes);
        let mut run = Run::begin(random, nodes, count);
        for _ in 0..64 {
            let change = run.any(random, count);
            run.lists = self.on_edges(&run.case(change))?;
            run.change(change);
        }
        Ok(())
    }

    /// Compares a call on edges; gives the lists that it leaves.
    fn on_edges(&mut self, case: &arrivals::Case) -> Result<Lists, String> {
        let seen = case.compare(&mut GUARDED.clone(), self.slips.walks)?;
        self.tally.add_on_edges(case.said(&seen));
        Ok(seen.1)
    }

    /// Both halves of the third promise on the plan that the library writes, by the rule that it takes from the file.
    fn walk(&mut self, random: &mut Random) -> Result<(), String> {
        let job = mixed::job(random);
        let file = filled(random, job.file());
        let said = |why: String| format!("{why}; job:\n{}", String::from_utf8_lossy(&file));
        let mut plan = [7; dapohiru::PLAN_LEN];
        let number = (GUARDED.plan)(&file, &mut [0; dapohiru::WORK_LEN], &mut plan);
        if number < ACCEPTED {
            return Err(said(format!("refused {number}")));
        }
        self.tally.planned += 1;
        let plan = &plan[..job.nodes.len()];
        let walks = Walks::new(&job, self.slips.walks);
        for _ in 0..4 {
            let walked = promise::walk(GUARDED, random, &walks, plan, 300).map_err(&said)?;
            self.tally.add_walk(&walked);
            if walked.differs {
                return Err(said(format!("two monitors differ under plan {plan:?}")));
            }
        }
        let needed = promise::needed(GUARDED, random, &walks, plan, 2).map_err(&said)?;
        self.tally.add_needed(&needed);
        Ok(())
    }

    /// A small job spread over up to 512 nodes, in the six calls that take a job file.
    fn spread(&mut self, random: &mut Random) -> Result<(), String> {
        let small = small::job(random);
        let nodes = random.pick(&[16, 17, 64, 65, 255, 256, 257, 511, 512]);
        let job = Spread::random(random, &small, nodes).job;
        self.whole(random, &job)
    }

    /// A job of 512 nodes with long loops, or of the longest file, in the six calls that take a job file; and the
    /// greatest price.
    fn large(&mut self, random: &mut Random) -> Result<(), String> {
        let job = match random.below(4) {
            0 => sized::job(random, FULL),
            1 => large::job(random, Order::Flow),
            _ => large::job(random, Order::Parts),
        };
        self.whole(random, &job)?;
        self.price_cases(&[pricing::Case::greatest()])
    }

    /// Planning, listing, the check of the plan and of two others, their prices, and the rule.
    fn whole(&mut self, random: &mut Random, job: &Job) -> Result<(), String> {
        let both = Service::BOTH.map(|service| serving::Case::of(service, job).with_zeros(random));
        let given = self.serve_cases(job, &both)?;
        let plans = [given.planned.plan, job.all_watched(), job.plan_of(&[])];
        let cases = plans.map(|plan| checking::Case::of(job, plan).with_zeros(random));
        self.check_cases(job, &cases)?;
        let nodes = job.nodes.len();
        let most = volumes::file(&vec![VOLUMES.most; nodes]);
        for checking in &cases {
            let any = volumes::any(&mut self.lines, nodes);
            self.price_both(checking, any)?;
            self.price_both(checking, most.clone())?;
        }
        self.rule(random, job)
    }
}
