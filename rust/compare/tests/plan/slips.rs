//! Wrong readings of documents 01 and 02, which a comparison must notice.
use crate::agreement::Calls;
use dapohiru_compare::serving::{cases, Case};
use dapohiru_generators::random::Random;
use dapohiru_generators::small;
use dapohiru_second::serving::Given;
use dapohiru_second::slip::Slip;
use dapohiru_second::walk::Walks;

#[test]
fn every_slip_of_the_second_implementation_is_noticed() {
    const MOST_JOBS: usize = 20_000;
    // a slip that has been noticed so often is not tried again
    const ENOUGH: usize = 5;
    let mut random = Random::fixed(1);
    let mut calls = Calls::new();
    let slips = Slip::of_planning();
    // for each slip how often it was noticed, and at which job for the first time
    let mut noticed = vec![(0, 0); slips.len()];
    let (mut jobs, mut made) = (0, 0);
    while jobs < MOST_JOBS && noticed.iter().any(|&(times, _)| times < ENOUGH) {
        jobs += 1;
        let job = small::job(&mut random);
        let given = Given::of(&Walks::new(&job, None));
        let seen: Vec<_> = cases(&mut random, &job)
            .into_iter()
            .map(|case| (calls.agree(format_args!("job {jobs}"), &given, &case), case))
            .collect();
        made += seen.len();
        for (&slip, (times, first)) in slips.iter().zip(&mut noticed) {
            if *times >= ENOUGH {
                continue;
            }
            let given = Given::of(&Walks::new(&job, Some(slip)));
            let differs = |(seen, case): &(_, Case)| case.wanted(&given, Some(slip)) != *seen;
            if seen.iter().any(differs) {
                *times += 1;
                *first = if *first == 0 { jobs } else { *first };
            }
        }
    }
    println!(
        "{} slips on {made} calls of {jobs} jobs; the first job that shows each:",
        slips.len()
    );
    for (slip, (_, first)) in slips.iter().zip(&noticed) {
        println!("{first:>8}   {slip:?}");
    }
    for (slip, &(times, _)) in slips.iter().zip(&noticed) {
        assert!(times > 0, "{slip:?} is not noticed");
    }
}
