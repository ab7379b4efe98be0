//! The second half of the third promise: for each watched point a walk on which the two records differ
//! once its byte alone is 0.
use crate::monitors::plan_of;
use dapohiru_compare::promise::{self, Needed};
use dapohiru_compare::wrapper::WRAPPER;
use dapohiru_generators::large::{self, Order};
use dapohiru_generators::mixed;
use dapohiru_generators::random::Random;
use dapohiru_generators::reentry::Reentry;
use dapohiru_generators::rings;
use dapohiru_generators::small;
use dapohiru_second::job::Job;
use dapohiru_second::slip::Slip;
use dapohiru_second::walk::Walks;

/// Takes walks that need the watched points of a plan, or says which point no walk needs.
fn needed(random: &mut Random, job: &Job, plan: &[u8], one_in: u64) -> Result<Needed, String> {
    promise::needed(WRAPPER, random, &Walks::new(job, None), plan, one_in)
}

/// Takes walks that need one in so many of the points that the plans of the library watch, and gives what they
/// came to: how many points there are, the events of the longest walk, and how many walks come in again and return.
fn all_needed(
    mut random: Random,
    jobs: usize,
    one_in: u64,
    job: impl Fn(&mut Random, usize) -> Job,
) -> Needed {
    let mut all = Needed::default();
    for number in 0..jobs {
        let job = job(&mut random, number);
        let plan = plan_of(&mut random, &job);
        let found = needed(&mut random, &job, &plan, one_in).unwrap();
        all.points += found.points;
        all.longest = all.longest.max(found.longest);
        all.came_in += found.came_in;
        all.returned += found.returned;
    }
    println!(
        "{} watched points, the longest walk has {} events, {} walks come in again and {} return",
        all.points, all.longest, all.came_in, all.returned
    );
    all
}

#[test]
fn every_watched_point_of_a_small_job_has_a_walk_that_needs_it() {
    let job = |random: &mut Random, _| mixed::small_job(random);
    let all = all_needed(Random::fixed(17), 3_000, 1, job);
    assert!(all.points > 2_000 && all.longest >= 6);
}

#[test]
fn watched_points_have_walks_that_need_them_and_come_in_again_or_return() {
    let job = |random: &mut Random, _| small::job_with(random, Reentry::Always);
    let all = all_needed(Random::fixed(26), 3_000, 1, job);
    for count in [all.came_in, all.returned] {
        assert!(count * 10 >= all.points, "{count} of {}", all.points);
    }
}

#[test]
fn watched_points_of_512_nodes_have_walks_that_need_them() {
    let job = |random: &mut Random, number| large::job(random, Order::in_turn(number));
    let all = all_needed(Random::fixed(18), 8, 4, job);
    assert!(all.points > 100 && all.longest >= 10);
}

#[test]
fn plans_that_watch_too_much_have_a_point_that_no_walk_needs() {
    let mut random = Random::fixed(19);
    for (slip, least) in [
        (Slip::NothingRemoved, 500),
        (Slip::LaterPassesOnlyCounted, 10),
    ] {
        let mut unneeded = 0;
        for _ in 0..1_000 {
            let job = rings::job(&mut random);
            let plan = dapohiru_second::planning::plan(&Walks::new(&job, Some(slip))).plan;
            unneeded += usize::from(needed(&mut random, &job, &plan, 1).is_err());
        }
        println!("{slip:?}: {unneeded} of 1000 jobs");
        assert!(unneeded >= least, "{slip:?}");
    }
}
