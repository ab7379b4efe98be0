//! What a plan saves: one with fewer points watched costs no more, and planning's own no more than all points
//! watched; and what other prices do to it.
use dapohiru::numbers::ACCEPTED;
use dapohiru_compare::pricing::{By, Memory};
use dapohiru_compare::wrapper::WRAPPER;
use dapohiru_generators::mixed;
use dapohiru_generators::random::Random;
use dapohiru_generators::zeros::filled;
use dapohiru_generators::{prices, small, volumes};
use dapohiru_second::job::Job;
use dapohiru_second::pricing::Answer;
use std::array;

/// Prices of the plans of one job under one volume file, by the house table or by a price file.
struct Prices<'a> {
    memory: &'a mut Memory,
    file: Vec<u8>,
    volumes: Vec<u8>,
    prices: Option<Vec<u8>>,
}

impl<'a> Prices<'a> {
    /// A job with any volume file for it, by the house table or by any price file.
    fn any(random: &mut Random, memory: &'a mut Memory, job: &Job, by: By) -> Self {
        Prices {
            memory,
            file: filled(random, job.file()),
            volumes: volumes::any(random, job.nodes.len()),
            prices: by.any_prices(random),
        }
    }

    /// The price of a plan.
    fn cents(&mut self, plan: &[u8]) -> u64 {
        let prices = self.prices.as_deref();
        match self.memory.call(&self.file, plan, &self.volumes, prices) {
            Ok(Answer::Cents(cents)) => cents,
            answer => panic!("{answer:?}"),
        }
    }

    /// The price of a plan by the file of these prices.
    fn cents_by(&mut self, plan: &[u8], cents: [u64; 16]) -> u64 {
        self.prices = Some(prices::file(&cents));
        self.cents(plan)
    }
}

#[test]
fn plan_whose_watched_points_are_watched_in_another_costs_no_more() {
    By::BOTH.into_iter().for_each(fewer_watched_cost_no_more);
}

/// Asks it of many jobs in this call.
fn fewer_watched_cost_no_more(by: By) {
    const JOBS: usize = 4_000;
    let mut random = Random::of_this_run();
    let mut memory = Memory::new(WRAPPER);
    let mut cheaper = 0;
    for number in 0..JOBS {
        let job = mixed::job(&mut random);
        let mut prices = Prices::any(&mut random, &mut memory, &job, by);
        let more = small::plan(&mut random, &job);
        let fewer: Vec<_> = more
            .iter()
            .map(|&byte| byte * random.below(2) as u8)
            .collect();
        let rest: Vec<_> = more
            .iter()
            .zip(&fewer)
            .map(|(&one, &of)| one - of)
            .collect();
        let (whole, part) = (prices.cents(&more), prices.cents(&fewer));
        assert!(part <= whole, "job {number}: {fewer:?} and {more:?}");
        // together with the rest it costs the same, or one cent more
        let both = part + prices.cents(&rest);
        assert!(both == whole || both == whole + 1, "job {number}");
        cheaper += usize::from(part < whole);
    }
    println!("{by:?}: of {JOBS} plans {cheaper} are cheaper than one that watches more");
    assert!(cheaper > JOBS / 10);
}

#[test]
fn plan_of_planning_costs_at_most_what_all_points_watched_cost() {
    By::BOTH.into_iter().for_each(own_plan_costs_no_more);
}

/// Asks it of many jobs in this call.
fn own_plan_costs_no_more(by: By) {
    const JOBS: usize = 4_000;
    let mut random = Random::of_this_run();
    let mut memory = Memory::new(WRAPPER);
    let mut saved = [0, 0];
    for number in 0..JOBS {
        let job = mixed::job(&mut random);
        let mut prices = Prices::any(&mut random, &mut memory, &job, by);
        let (mut work, mut own) = (vec![7; dapohiru::WORK_LEN], [7; dapohiru::PLAN_LEN]);
        let answer = dapohiru::numbers::plan(&prices.file, &mut work, &mut own);
        assert!(answer >= ACCEPTED, "job {number}: {answer}");
        let own = prices.cents(&own[..job.nodes.len()]);
        let all = prices.cents(&job.all_watched());
        assert!(own <= all, "job {number}: {own} and {all} cents");
        saved[usize::from(own < all)] += 1;
    }
    println!("{by:?}: plans that save nothing, and that save cents: {saved:?}");
    assert!(saved.iter().all(|&plans| plans > JOBS / 100));
}

#[test]
fn dearer_price_file_costs_no_less_and_a_free_one_nothing() {
    const JOBS: usize = 4_000;
    let mut random = Random::of_this_run();
    let mut memory = Memory::new(WRAPPER);
    let mut dearer = 0;
    for number in 0..JOBS {
        let job = mixed::job(&mut random);
        let plan = small::plan(&mut random, &job);
        let mut prices = Prices::any(&mut random, &mut memory, &job, By::File);
        let more = prices::cents(&mut random);
        let less = more.map(|cents| random.between(0, cents));
        let rest = array::from_fn(|symbol| more[symbol] - less[symbol]);
        let [whole, part, other] = [more, less, rest].map(|cents| prices.cents_by(&plan, cents));
        assert!(part <= whole, "job {number}: {less:?} and {more:?}");
        // both parts together cost the same, or one cent more
        let both = part + other;
        assert!(both == whole || both == whole + 1, "job {number}");
        assert_eq!(prices.cents_by(&plan, [0; 16]), 0, "job {number}");
        dearer += usize::from(part < whole);
    }
    println!("of {JOBS} price files {dearer} are dearer than one with lower prices");
    assert!(dearer > JOBS / 10);
}
