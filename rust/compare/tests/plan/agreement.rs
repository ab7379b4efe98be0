//! The library and the second implementation on the same calls.
use crate::monitors::plan_of;
use dapohiru_compare::memory::Counts;
use dapohiru_compare::seen::Seen;
use dapohiru_compare::serving::{cases, Case, Memory, Said};
use dapohiru_compare::wrapper::WRAPPER;
use dapohiru_generators::features::{FeatureCounts, Features};
use dapohiru_generators::mixed;
use dapohiru_generators::random::Random;
use dapohiru_generators::small;
use dapohiru_second::apart::Apart;
use dapohiru_second::found::alike;
use dapohiru_second::job::Job;
use dapohiru_second::search::difference;
use dapohiru_second::serving::Given;
use dapohiru_second::slip::Slip;
use dapohiru_second::walk::{Place, Walks};
use std::collections::BTreeMap;
use std::fmt::Display;

/// Calls that the two are compared on, with counts of the answers.
pub struct Calls {
    memory: Memory,
    pub counts: Counts<Said>,
}

impl Calls {
    /// No call so far.
    pub fn new() -> Self {
        Calls {
            memory: Memory::new(WRAPPER),
            counts: Counts::default(),
        }
    }

    /// Makes a call, asks that the two agree on it, and gives what is seen of it.
    #[track_caller]
    pub fn agree(&mut self, name: impl Display, given: &Given, case: &Case) -> Seen {
        let compared = case.compare(&mut self.memory, given);
        self.counts.agree(name, compared, |seen| case.said(seen))
    }

    /// Makes the calls of a job, some of them with faults, asks that the two agree on each, and gives
    /// what the walks give.
    pub fn agree_on(&mut self, random: &mut Random, number: usize, job: &Job) -> Given {
        let given = Given::of(&Walks::new(job, None));
        for case in cases(random, job) {
            self.agree(format_args!("job {number}"), &given, &case);
        }
        given
    }
}

/// Whether words of calls with two events or more have a part in the plan.
fn needs_a_long_call_word(job: &Job, given: &Given) -> bool {
    let short = Walks::new(job, Some(Slip::CallWordOfOneSymbol));
    dapohiru_second::planning::plan(&short).plan != given.planned.plan
}

#[test]
fn small_jobs_agree_with_the_walks() {
    const JOBS: usize = 8_000;
    let mut random = Random::fixed(2);
    let mut calls = Calls::new();
    let mut features = FeatureCounts::default();
    let (mut long_words, mut nop_stays, mut other_goes) = (0, 0, 0);
    let mut passes = BTreeMap::<_, u64>::new();
    for number in 0..JOBS {
        let job = mixed::small_job(&mut random);
        let given = calls.agree_on(&mut random, number, &job);
        let of = Features::of(&job);
        features.add(of);
        long_words += usize::from(of.call && needs_a_long_call_word(&job, &given));
        *passes.entry(given.planned.passes).or_default() += 1;
        for line in given.listing.split(|&byte| byte == b'\n') {
            nop_stays += usize::from(line.starts_with(b"W") && line.ends_with(b"1     1"));
            other_goes += usize::from(line.starts_with(b"W") && line.ends_with(b"0     0"));
        }
    }
    calls.counts.print(&format!("{JOBS} jobs"));
    features.print();
    println!("plans that need call words of two events or more: {long_words}; jobs by passes: {passes:?}");
    println!(
        "points that stay with nop mark 1: {nop_stays}, that go with nop mark 0: {other_goes}"
    );
    calls.counts.came(Said::all());
    assert!(long_words >= 20 && nop_stays >= 20 && other_goes >= 20);
    features.are_common();
    for (least, count) in [(1_000, 1), (1_000, 2), (20, 3)] {
        assert!(passes[&count] >= least, "{passes:?}");
    }
}

#[test]
fn plan_is_faithful_and_loses_that_with_any_watched_point() {
    let mut random = Random::fixed(6);
    let (mut plans, mut cleared) = (0, 0);
    for number in 0..2_000 {
        let job = small::job(&mut random);
        let walks = Walks::new(&job, None);
        let plan = plan_of(&mut random, &job);
        assert_eq!(difference(&walks, &plan), None, "job {number}");
        plans += 1;
        for point in (0..plan.len()).filter(|&node| plan[node] == 1) {
            let mut fewer = plan.clone();
            fewer[point] = 0;
            assert!(
                difference(&walks, &fewer).is_some(),
                "job {number}, node {point}"
            );
            cleared += 1;
        }
    }
    println!("{plans} plans, {cleared} watched points");
    assert!(cleared > 1_000);
}

#[test]
fn classes_found_backwards_are_those_of_all_continuations() {
    let mut random = Random::fixed(7);
    let (mut together, mut apart) = (0, 0);
    for number in 0..600 {
        let job = small::job(&mut random);
        let walks = Walks::new(&job, None);
        let table = Apart::new(&walks, &job.all_watched());
        for node in 0..job.nodes.len() {
            for _ in 0..20 {
                let (one, other) = (random.place(job.states()), random.place(job.states()));
                let wanted = alike(&walks, node, one, other);
                assert_eq!(
                    table.alike(Place::Past(node), one, other),
                    wanted,
                    "job {number}"
                );
                *(if wanted { &mut together } else { &mut apart }) += 1;
            }
        }
    }
    println!("{together} pairs of one class, {apart} apart");
    assert!(together > 5_000 && apart > 5_000);
}
