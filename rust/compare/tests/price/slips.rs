//! Wrong readings of document 02, which a comparison must notice.
use crate::agreement::Calls;
use dapohiru_compare::pricing::{cases, By, Case};
use dapohiru_generators::random::Random;
use dapohiru_generators::sized::{self, FULL};
use dapohiru_generators::small;
use dapohiru_second::slip::Slip;

/// How a slip is noticed.
#[derive(Clone, Copy, Default)]
struct Noticed {
    /// How many calls differ.
    calls: usize,
    /// The first job that shows it.
    job: usize,
}

/// Asks that calls of this kind notice each of these slips.
fn are_noticed(by: By, slips: &[Slip]) {
    const JOBS: usize = 1_000;
    const MOST_JOBS: usize = 20_000;
    let mut random = Random::of_this_run();
    let mut calls = Calls::new();
    let mut noticed = vec![Noticed::default(); slips.len()];
    let (mut jobs, mut made) = (0, 0);
    // a rare slip may take more jobs
    while jobs < JOBS || (jobs < MOST_JOBS && noticed.iter().any(|slip| slip.calls == 0)) {
        jobs += 1;
        for case in cases_of(&mut random, jobs, by) {
            let answer = calls.agree(format_args!("job {jobs}"), &case);
            for (&slip, noticed) in slips.iter().zip(&mut noticed) {
                if case.wanted(Some(slip)) != answer {
                    noticed.calls += 1;
                    noticed.job = if noticed.job == 0 { jobs } else { noticed.job };
                }
            }
            made += 1;
        }
    }
    println!(
        "{by:?}: {} slips on {made} calls of {jobs} jobs; calls that differ, and the first job that shows each:",
        slips.len()
    );
    for (slip, Noticed { calls, job }) in slips.iter().zip(&noticed) {
        println!("{calls:>8} {job:>6}   {slip:?}");
    }
    for (slip, noticed) in slips.iter().zip(&noticed) {
        assert!(noticed.calls > 0, "{slip:?} is not noticed");
    }
}

/// The calls of this kind on one job; one job in a hundred has the longest file, with the greatest price beside it.
fn cases_of(random: &mut Random, number: usize, by: By) -> Vec<Case> {
    let mut all = match number % 100 {
        0 => {
            let job = sized::job(random, FULL);
            let greatest = Case::greatest();
            [cases(random, &job), vec![greatest]].concat()
        }
        _ => {
            let job = small::job(random);
            cases(random, &job)
        }
    };
    all.retain(|case| case.goes_by() == by);
    all
}

#[test]
fn every_slip_of_the_second_implementation_is_noticed() {
    are_noticed(By::House, &Slip::of_pricing());
}

#[test]
fn every_slip_of_the_second_implementation_is_noticed_by_price_files() {
    are_noticed(By::File, &Slip::of_pricing_by());
}
