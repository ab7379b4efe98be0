//! Milliseconds to plan 300 jobs of 512 nodes, and 300 more with 1 to 8 calls that may come back in: the
//! library's call beside a plain Rust planner whose checks sweep all nodes until nothing changes. Both read the
//! same file, write the same plan bytes and clear the same bytes. `cargo bench --offline -p dapohiru-plain --bench plan` runs it.
#[path = "../check/jobs.rs"]
mod jobs;

use dapohiru::{plan, Counts, Refusal};
use dapohiru_generators::large::Order;
use dapohiru_generators::random::Random;
use dapohiru_generators::reentry::Reentry;
use dapohiru_plain::check::Checker;
use jobs::{Load, Loads};
use std::hint::black_box;
use std::time::Instant;

/// How many jobs there are of each sort.
const JOBS: usize = 300;
/// Rounds over all jobs; a job's time is the median of its times.
const ROUNDS: usize = 3;
/// The lengths of the buffers.
const WORK: usize = 65_536;
const PLAN: usize = 512;

/// Event nodes, watched points and passes, or the refusal's number.
type Answer = Result<[u64; 3], u64>;

/// The milliseconds that each planner takes for one job.
#[derive(Clone, Default)]
struct Times {
    ours: Vec<f64>,
    theirs: Vec<f64>,
}

/// One planner's milliseconds, its answer and the plan buffer that it leaves.
fn time(plan_once: impl FnOnce(&mut [u8]) -> Answer) -> (f64, Answer, [u8; PLAN]) {
    let mut bytes = [7; PLAN];
    let start = Instant::now();
    let answer = black_box(plan_once(black_box(&mut bytes)));
    (start.elapsed().as_secs_f64() * 1_000.0, answer, bytes)
}

/// Times both planners on one job, and asks that they agree.
fn time_both(
    times: &mut Times,
    ours_first: bool,
    load: &Load,
    checker: &mut Checker,
    work: &mut [u8],
) {
    let file = black_box(&load.file[..]);
    let ours = |work: &mut [u8]| {
        time(|bytes| match plan(file, black_box(work), bytes) {
            Ok(Counts {
                points,
                watched,
                passes,
            }) => Ok([points, watched, passes]),
            Err(Refusal(number)) => Err(number),
        })
    };
    let mut theirs = |work: &mut [u8]| {
        time(|bytes| {
            let counts = checker.plan(file, black_box(work), bytes)?;
            Ok([counts.points as u64, counts.watched as u64, counts.passes])
        })
    };
    let (ours, theirs) = if ours_first {
        let ours = ours(work);
        (ours, theirs(work))
    } else {
        let theirs = theirs(work);
        (ours(work), theirs)
    };
    assert!(theirs.1.is_ok(), "a job is refused");
    assert_eq!(ours.1, theirs.1, "the counts differ");
    assert_eq!(ours.2, theirs.2, "the plans differ");
    let [(found, _), ..] = load.plans();
    assert!(theirs.2.starts_with(found), "the plan is not the one found");
    times.ours.push(ours.0);
    times.theirs.push(theirs.0);
}

fn median(times: &[f64]) -> f64 {
    let mut times = times.to_vec();
    times.sort_by(f64::total_cmp);
    times[times.len() / 2]
}

/// Prints the sums of the medians, their ratio, the worst ratio of a single job, and how many jobs have
/// a ratio above 2.
fn print<'a>(what: &str, times: impl Iterator<Item = &'a Times>) {
    let (mut ours, mut theirs, mut worst, mut above) = (0.0, 0.0, 0.0f64, 0);
    for of_job in times {
        let (our, their) = (median(&of_job.ours), median(&of_job.theirs));
        ours += our;
        theirs += their;
        worst = worst.max(our / their);
        above += usize::from(our / their > 2.0);
    }
    println!(
        "  {what:<38} {ours:>13.0}   {theirs:>10.0}   {:>5.2}   {worst:>9.2}   {above:>7}",
        ours / theirs
    );
}

/// Times both planners on many jobs, and prints what they came to.
fn run(random: &mut Random, reentry: Reentry, all: &str) {
    let mut checker = Checker::default();
    let mut work = vec![0; WORK];
    let loads = Loads::random(random, &mut checker, JOBS, reentry);
    loads.print();
    let mut times = vec![Times::default(); JOBS];
    for round in 0..ROUNDS {
        for (number, (load, times)) in loads.all.iter().zip(&mut times).enumerate() {
            let ours_first = (round + number / 2) % 2 == 0;
            time_both(times, ours_first, load, &mut checker, &mut work);
        }
    }
    println!("plans and counts are equal on all {JOBS} jobs");
    println!("milliseconds for {JOBS} calls, each the median of {ROUNDS} rounds");
    println!(
        "{:<40} dapohiru_plan   plain Rust   ratio   worst job   above 2",
        ""
    );
    let of_order = |order: Order| {
        let of_order = move |(load, _): &(&Load, _)| load.order == order;
        let of_jobs = loads.all.iter().zip(&times).filter(of_order);
        of_jobs.map(|(_, times)| times)
    };
    print("numbered along the flow", of_order(Order::Flow));
    print("numbered by parts", of_order(Order::Parts));
    print(all, times.iter());
}

fn main() {
    let mut random = Random::fixed(1);
    run(&mut random, Reentry::Never, "all jobs");
    println!("with calls that may come back in");
    run(&mut random, Reentry::Always, "all jobs (at most 1.3)");
}
