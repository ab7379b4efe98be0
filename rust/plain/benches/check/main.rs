//! Milliseconds to check plans of 300 jobs of 512 nodes: the library's call beside a plain Rust check
//! that sweeps all nodes until nothing changes. Both read the same file and clear the same bytes.
//! `cargo bench --offline -p dapohiru-plain --bench check` runs it.
mod jobs;

use dapohiru::{check, Refusal, Verdict};
use dapohiru_generators::large::Order;
use dapohiru_generators::random::Random;
use dapohiru_generators::reentry::Reentry;
use dapohiru_plain::check::Checker;
use jobs::{Answer, Load, Loads};
use std::hint::black_box;
use std::time::Instant;

/// How many jobs there are.
const JOBS: usize = 300;
/// Rounds over all jobs; a job's time is the median of its times.
const ROUNDS: usize = 15;
/// The length of the work buffer.
const WORK: usize = 65_536;

/// The times of one plan of one job, in milliseconds.
#[derive(Clone, Default)]
struct Times {
    ours: Vec<f64>,
    theirs: Vec<f64>,
}

/// The milliseconds that one of the checks takes, with the answer that is due.
fn time(wanted: Answer, one_check: impl FnOnce() -> Answer) -> f64 {
    let start = Instant::now();
    let answer = black_box(one_check());
    let time = start.elapsed().as_secs_f64() * 1_000.0;
    assert_eq!(answer, wanted, "a check is wrong");
    time
}

/// Times both checks on one plan, the library's first in every other round.
fn time_both(
    times: &mut Times,
    round: usize,
    file: &[u8],
    (plan, wanted): (&[u8], Answer),
    checker: &mut Checker,
    work: &mut [u8],
) {
    for turn in 0..2 {
        let (file, plan) = black_box((file, plan));
        if (round + turn).is_multiple_of(2) {
            times.ours.push(time(wanted, || {
                let answer = check(file, plan, black_box(work));
                let faithful = answer.map(|verdict| verdict == Verdict::Faithful);
                faithful.map_err(|Refusal(number)| number)
            }));
        } else {
            let one_check = || checker.check(file, plan, black_box(work));
            times.theirs.push(time(wanted, one_check));
        }
    }
}

fn median(times: &[f64]) -> f64 {
    let mut times = times.to_vec();
    times.sort_by(f64::total_cmp);
    times[times.len() / 2]
}

/// Prints the sums of the medians, their ratio, and the worst ratio of a single check.
fn print<'a>(what: &str, times: impl Iterator<Item = &'a Times>) {
    let (mut ours, mut theirs, mut worst) = (0.0, 0.0, 0.0f64);
    for of_job in times {
        let (our, their) = (median(&of_job.ours), median(&of_job.theirs));
        ours += our;
        theirs += their;
        worst = worst.max(our / their);
    }
    println!(
        "  {what:<46} {ours:>14.2}   {theirs:>10.2}   {:>5.2}   {worst:>9.2}",
        ours / theirs
    );
}

fn main() {
    let mut random = Random::of_this_run();
    let mut checker = Checker::default();
    let mut work = vec![0; WORK];
    let loads = Loads::random(&mut random, &mut checker, JOBS, Reentry::Never);
    loads.print();

    let mut times = vec![[(); 4].map(|()| Times::default()); JOBS];
    for round in 0..ROUNDS {
        for (load, times) in loads.all.iter().zip(&mut times) {
            for (plan, times) in load.plans().into_iter().zip(times) {
                time_both(times, round, &load.file, plan, &mut checker, &mut work);
            }
        }
    }

    println!("milliseconds for {JOBS} calls, each the median of {ROUNDS} rounds");
    println!("{:<48} dapohiru_check   plain Rust   ratio   worst job", "");
    let names = [
        "faithful: the plan found",
        "faithful: all watched",
        "different: one needed point cleared",
        "refused as 11: the file read and no more",
    ];
    for (place, name) in names.into_iter().enumerate() {
        print(name, times.iter().map(|of_job| &of_job[place]));
    }
    let of_order = |order: Order| {
        let of_order = move |(load, _): &(&Load, _)| load.order == order;
        let of_jobs = loads.all.iter().zip(&times).filter(of_order);
        of_jobs.flat_map(|(_, of_job)| &of_job[..2])
    };
    print(
        "both faithful, numbered along the flow",
        of_order(Order::Flow),
    );
    print("both faithful, numbered by parts", of_order(Order::Parts));
    print(
        "both faithful (at most 1.0, worst at most 2.0)",
        times.iter().flat_map(|of_job| &of_job[..2]),
    );
}
