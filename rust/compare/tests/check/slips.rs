//! Wrong readings of documents 01 and 02, which a comparison must notice.
use dapohiru_compare::checking::{cases, Memory};
use dapohiru_compare::wrapper::WRAPPER;
use dapohiru_generators::random::Random;
use dapohiru_generators::small;
use dapohiru_second::slip::Slip;
use dapohiru_second::walk::Walks;

#[test]
fn every_slip_of_the_second_implementation_is_noticed() {
    const JOBS: usize = 2_000;
    const MOST_JOBS: usize = 20_000;
    let mut random = Random::of_this_run();
    let mut memory = Memory::new(WRAPPER);
    let (mut jobs, mut calls) = (0, 0);
    let slips = Slip::of_check();
    let mut noticed = vec![0; slips.len()];
    // a rare slip may take more jobs
    while jobs < JOBS || (jobs < MOST_JOBS && noticed.contains(&0)) {
        jobs += 1;
        let job = small::job(&mut random);
        let walks = Walks::new(&job, None);
        let seen: Vec<_> = cases(&mut random, &job)
            .into_iter()
            .map(|case| match case.compare(&mut memory, &walks) {
                Ok(seen) => (case, seen),
                Err(why) => panic!("job {jobs}: {why}"),
            })
            .collect();
        for (&slip, noticed) in slips.iter().zip(&mut noticed) {
            let walks = Walks::new(&job, Some(slip));
            let differs = seen
                .iter()
                .filter(|(case, seen)| case.wanted(&walks, Some(slip)) != *seen);
            *noticed += differs.count();
        }
        calls += seen.len();
    }
    println!(
        "{} slips on {calls} calls of {jobs} jobs; calls that differ:",
        slips.len()
    );
    for (slip, noticed) in slips.iter().zip(&noticed) {
        println!("{noticed:>8}   {slip:?}");
    }
    for (slip, &noticed) in slips.iter().zip(&noticed) {
        assert!(noticed > 0, "{slip:?} is not noticed");
    }
}
