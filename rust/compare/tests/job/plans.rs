//! Jobs under plans of somebody else.
use dapohiru::{planfile, Counts, Job, JobError, Refusal};
use dapohiru_generators::random::Random;
use dapohiru_generators::samples::pair;
use dapohiru_generators::small;
use dapohiru_generators::zeros::filled;
use dapohiru_second::search::difference;
use dapohiru_second::walk::Walks;

#[test]
fn given_plan_is_taken_where_it_is_faithful_and_else_turned_down() {
    let mut random = Random::of_this_run();
    let (mut faithful, mut different) = (0, 0);
    for _ in 0..300 {
        let read = small::job(&mut random);
        let file = filled(&mut random, read.file());
        let walks = Walks::new(&read, None);
        let planned = Job::new(&file).expect("the file is a job");
        for plan in small::plans(&mut random, &read) {
            let written = planfile::write(&plan);
            let plan_read = planfile::read(written.as_bytes()).expect("it is a plan file");
            assert_eq!(plan_read, plan);
            let job = Job::with_plan(&file, &plan);
            if difference(&walks, &plan).is_some() {
                assert_eq!(job, Err(JobError::Different));
                different += 1;
                continue;
            }
            let job = job.expect("the plan is faithful");
            assert_eq!(job.plan(), plan);
            assert_eq!(job.rule(), planned.rule());
            assert_eq!(job.entries(), planned.entries());
            let counts = Counts {
                points: planned.counts().points,
                watched: plan.iter().map(|&byte| u64::from(byte)).sum(),
                passes: 0,
            };
            assert_eq!(job.counts(), counts);
            for (point, of_planned) in job.points().zip(planned.points()) {
                assert_eq!(
                    (point.node, point.symbol),
                    (of_planned.node, of_planned.symbol)
                );
                assert_eq!(point.watched, plan[point.node] == 1);
            }
            assert_eq!(job.points().count(), planned.points().count());
            faithful += 1;
        }
    }
    println!("{faithful} plans are faithful, {different} are different");
    assert!(faithful > 500 && different > 500);
}

#[test]
fn plan_that_is_none_for_the_job_is_refused_by_number() {
    let file = pair().file();
    for (plan, number) in [
        (&[][..], 11),
        (&[1, 1], 11),
        (&[1, 1, 1, 0], 11),
        (&[1, 1, 2], 12),
        (&[255, 1, 1], 12),
    ] {
        let refused = Err(JobError::Refused(Refusal(number)));
        assert_eq!(Job::with_plan(&file, plan), refused, "{plan:?}");
    }
    // the file comes first
    let cut = &file[..file.len() - 1];
    let refused = Err(JobError::Refused(Refusal(4)));
    assert_eq!(Job::with_plan(cut, &[1, 1, 2]), refused);
}

#[test]
fn plan_of_planning_given_again_is_the_same_job_without_its_passes() {
    let mut random = Random::of_this_run();
    for _ in 0..200 {
        let file = small::job(&mut random).file();
        let planned = Job::new(&file).expect("the file is a job");
        let again = Job::with_plan(&file, planned.plan()).expect("the plan is faithful");
        assert_eq!(again.plan(), planned.plan());
        assert_eq!(again.counts().watched, planned.counts().watched);
        assert!(again.points().eq(planned.points()));
        assert!(planned.counts().passes > 0 && again.counts().passes == 0);
    }
}
