//! The library and the second implementation on the same calls.
use dapohiru_compare::checking::{cases, Case, Memory, Said};
use dapohiru_compare::memory::Counts;
use dapohiru_compare::on_file::OnFile;
use dapohiru_compare::wrapper::WRAPPER;
use dapohiru_generators::features::{FeatureCounts, Features};
use dapohiru_generators::large::{self, Order};
use dapohiru_generators::mixed;
use dapohiru_generators::random::Random;
use dapohiru_generators::reentry::Reentry;
use dapohiru_generators::small;
use dapohiru_generators::zeros::filled;
use dapohiru_plain::check::Checker;
use dapohiru_second::job::Job;
use dapohiru_second::reading::WORK;
use dapohiru_second::search::difference;
use dapohiru_second::slip::Slip;
use dapohiru_second::walk::Walks;

/// Whether the plan with no point watched differs, and only on a walk with a call word of two events
/// or more.
fn needs_a_long_call_word(job: &Job) -> bool {
    let plan = job.plan_of(&[]);
    let short = Walks::new(job, Some(Slip::CallWordOfOneSymbol));
    let any = Walks::new(job, None);
    difference(&short, &plan).is_none() && difference(&any, &plan).is_some()
}

#[test]
fn small_jobs_with_all_their_plans_agree_with_the_walks() {
    const JOBS: usize = 8_000;
    let mut random = Random::of_this_run();
    let mut memory = Memory::new(WRAPPER);
    let mut counts = Counts::default();
    let mut features = FeatureCounts::default();
    let mut long_words = 0;
    for number in 0..JOBS {
        let job = small::job(&mut random);
        let walks = Walks::new(&job, None);
        for case in cases(&mut random, &job) {
            let compared = case.compare(&mut memory, &walks);
            counts.agree(format_args!("job {number}"), compared, |seen| seen.said);
        }
        let of = Features::of(&job);
        long_words += usize::from(of.call && needs_a_long_call_word(&job));
        features.add(of);
    }
    counts.print(&format!("{JOBS} jobs"));
    features.print();
    println!("a difference that needs a call word of two events or more: {long_words}");
    counts.came(Said::all());
    assert!(long_words >= 5);
    features.are_common();
    for said in [Said::Faithful, Said::Different] {
        assert!(counts.of(said) > 10_000, "{said:?} is too rare");
    }
}

#[test]
fn jobs_of_512_nodes_agree_with_the_walks() {
    const JOBS: usize = 40;
    let mut random = Random::of_this_run();
    let mut memory = Memory::new(WRAPPER);
    let mut checker = Checker::default();
    let mut counts = Counts::default();
    for number in 0..JOBS {
        let job = mixed::full_job(&mut random, number, 8);
        let walks = Walks::new(&job, None);
        let file = filled(&mut random, job.file());
        let found = dapohiru_plain::plan::plan(&mut checker, &file).expect("the job is read");
        let mut plans = vec![job.all_watched(), job.plan_of(&[]), found.bytes.clone()];
        // one needed point cleared, or one more watched
        for point in job.points() {
            if random.once_in(60) {
                let mut plan = found.bytes.clone();
                plan[point] = 1 - plan[point];
                plans.push(plan);
            }
        }
        for plan in plans {
            let case = Case::of(&job, plan).with_zeros(&mut random);
            let compared = case.compare(&mut memory, &walks);
            counts.agree(format_args!("job {number}"), compared, |seen| seen.said);
        }
    }
    counts.print(&format!("{JOBS} jobs"));
    assert!(counts.of(Said::Faithful) >= 2 * JOBS as u64);
    assert!(counts.of(Said::Different) >= JOBS as u64);
}

#[test]
fn plain_check_and_planner_of_the_benchmark_agree_with_the_walks() {
    let mut random = Random::of_this_run();
    let mut checker = Checker::default();
    let mut plans = 0;
    for number in 0..4_000 {
        let job = small::job(&mut random);
        let file = filled(&mut random, job.file());
        let walks = Walks::new(&job, None);
        for plan in small::plans(&mut random, &job) {
            let faithful = checker.check(&file, &plan, &mut vec![0; WORK]);
            let wanted = difference(&walks, &plan).is_none();
            assert_eq!(faithful, Ok(wanted), "job {number}");
            plans += 1;
        }
        let found = dapohiru_plain::plan::plan(&mut checker, &file).expect("the job is read");
        let wanted = dapohiru_second::planning::plan(&walks);
        assert_eq!((&found.bytes, found.passes), (&wanted.plan, wanted.passes));
        assert_eq!(found.points as u64, wanted.points);
        assert_eq!(found.watched as u64, wanted.watched);
        let mut lent = [7; 512];
        let counts = checker.plan(&file, &mut vec![0; WORK], &mut lent);
        let counts = counts.map(|counts| (counts.points, counts.watched, counts.passes));
        assert_eq!(counts, Ok((found.points, found.watched, found.passes)));
        assert!(
            lent.starts_with(&found.bytes)
                && lent[found.bytes.len()..].iter().all(|&byte| byte == 7)
        );
    }
    println!("{plans} plans");
}

#[test]
fn plain_check_of_512_nodes_with_calls_that_come_back_in_agrees_with_the_walks() {
    let mut random = Random::of_this_run();
    let mut checker = Checker::default();
    let mut verdicts = [0, 0];
    for number in 0..12 {
        let job = large::job_with(&mut random, Order::in_turn(number), Reentry::Always);
        let walks = Walks::new(&job, None);
        let found = dapohiru_plain::plan::plan(&mut checker, &job.file()).expect("it is read");
        let mut plans = vec![job.all_watched(), job.plan_of(&[]), found.bytes.clone()];
        for _ in 0..8 {
            let mut plan = found.bytes.clone();
            let point = random.pick(&job.points());
            plan[point] = 1 - plan[point];
            plans.push(plan);
        }
        for plan in plans {
            let faithful = checker.check(&job.file(), &plan, &mut vec![0; WORK]);
            let wanted = difference(&walks, &plan).is_none();
            assert_eq!(faithful, Ok(wanted), "job {number}");
            verdicts[usize::from(wanted)] += 1;
        }
    }
    println!("different and faithful: {verdicts:?}");
    assert!(verdicts.iter().all(|&count| count >= 12));
}
