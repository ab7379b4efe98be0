//! The jobs of the benchmark, with the plans to be checked.
use dapohiru_generators::large::{self, Order};
use dapohiru_generators::random::Random;
use dapohiru_generators::reentry::Reentry;
use dapohiru_generators::shape::{Histogram, Shape, Shapes};
use dapohiru_plain::check::Checker;
use dapohiru_plain::plan::plan;
use dapohiru_second::job::Job;

/// Whether a plan is faithful, or the refusal's number.
pub type Answer = Result<bool, u64>;

/// A job's file, with the plans to be checked.
pub struct Load {
    pub order: Order,
    pub file: Vec<u8>,
    /// The plan that the plain planner finds.
    found: Vec<u8>,
    all_watched: Vec<u8>,
    /// The plan found with one watched point cleared.
    cleared: Vec<u8>,
}

impl Load {
    /// The plans, each with the answer that is due; the last is no plan.
    pub fn plans(&self) -> [(&[u8], Answer); 4] {
        [
            (&self.found, Ok(true)),
            (&self.all_watched, Ok(true)),
            (&self.cleared, Ok(false)),
            (&[], Err(11)),
        ]
    }
}

/// Many jobs, and what they are like.
pub struct Loads {
    pub all: Vec<Load>,
    passed_over: usize,
    shapes: Vec<Shape>,
    /// Per cent of the points that the plan found watches.
    watched: Histogram,
    passes: Histogram,
    /// Sweeps of the plain check on the plan found.
    sweeps: Histogram,
}

impl Loads {
    /// So many jobs whose plan watches a quarter to three quarters of the points, with calls that may come back
    /// in or without. Half of them are numbered along the flow.
    pub fn random(
        random: &mut Random,
        checker: &mut Checker,
        count: usize,
        reentry: Reentry,
    ) -> Self {
        let mut loads = Loads {
            all: Vec::new(),
            passed_over: 0,
            shapes: Vec::new(),
            watched: Histogram::new("per cent of points watched", 5),
            passes: Histogram::new("passes of planning", 1),
            sweeps: Histogram::new("sweeps of the plain check", 1),
        };
        while loads.all.len() < count {
            let order = Order::in_turn(loads.all.len());
            let job = large::job_with(random, order, reentry);
            if !loads.add(random, checker, order, &job) {
                loads.passed_over += 1;
            }
        }
        loads
    }

    /// Adds a job, if its plan watches neither too few points nor too many.
    fn add(&mut self, random: &mut Random, checker: &mut Checker, order: Order, job: &Job) -> bool {
        let file = job.file();
        let found = plan(checker, &file).expect("the job is read");
        if 4 * found.watched < found.points || 4 * found.watched > 3 * found.points {
            return false;
        }
        assert!(checker.faithful(&found.bytes));
        self.sweeps.add(checker.sweeps as usize);
        self.watched.add(100 * found.watched / found.points);
        self.passes.add(found.passes as usize);
        self.shapes.push(Shape::of(job));
        let watched: Vec<_> = (0..job.nodes.len())
            .filter(|&node| found.bytes[node] == 1)
            .collect();
        let mut cleared = found.bytes.clone();
        cleared[random.pick(&watched)] = 0;
        self.all.push(Load {
            order,
            file,
            found: found.bytes,
            all_watched: job.all_watched(),
            cleared,
        });
        true
    }

    /// Says what the jobs are like.
    pub fn print(&self) {
        println!(
            "{} jobs of {} nodes, {} passed over for the share of points watched; how many jobs, or loops, have",
            self.all.len(),
            large::NODES,
            self.passed_over
        );
        Shapes::of(&self.shapes).print();
        for histogram in [&self.watched, &self.passes, &self.sweeps] {
            histogram.print();
        }
    }
}
