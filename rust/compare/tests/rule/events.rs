//! The rule that the library takes from a file, handed to the event step with the three numbers of its answer: it is
//! never refused, and its steps are those of the job.
use crate::agreement::job;
use dapohiru::{Record, Refusal, Report};
use dapohiru_compare::library::GUARDED;
use dapohiru_compare::ruling::{every_step, taken};
use dapohiru_compare::wrapper::{rule, WRAPPER};
use dapohiru_generators::damage::Damaged;
use dapohiru_generators::random::Random;
use dapohiru_generators::samples::{in_loop, one_seal, pair, turn, two_writes};
use dapohiru_generators::sized::{self, FULL};
use dapohiru_generators::zeros::filled;
use dapohiru_second::reading::WORK;

#[test]
fn rule_of_a_job_takes_every_step_of_the_job_and_is_never_refused() {
    const JOBS: usize = 2_048;
    let mut random = Random::of_this_run();
    let mut jobs = vec![pair(), in_loop(), turn(), one_seal(4), two_writes()];
    jobs.extend((0..4).map(|_| sized::job(&mut random, FULL)));
    jobs.extend((1..=JOBS).map(|number| job(&mut random, number)));
    let (mut alarms, mut steps) = (0, 0);
    for job in &jobs {
        let file = filled(&mut random, job.file());
        let total = random.pick(&[0, 255, u64::MAX - 1, u64::MAX]);
        for library in [GUARDED, WRAPPER] {
            let rule = taken(library, &file).expect("the job has a rule");
            alarms += every_step(library, job, &rule, total);
            steps += job.states() as u64 * job.symbols;
        }
    }
    println!("{steps} steps of {} jobs, {alarms} alarms", jobs.len());
    assert!(steps > 50_000 && alarms > 10_000);
}

#[test]
fn rule_of_a_damaged_file_that_is_accepted_takes_every_step_of_what_it_spells() {
    let mut random = Random::of_this_run();
    let mut accepted = 0;
    for _ in 0..4_000 {
        let damaged = Damaged::random(&mut random);
        match (taken(GUARDED, &damaged.file), damaged.unread) {
            (Ok(rule), None) => {
                every_step(GUARDED, &damaged.job, &rule, 0);
                accepted += 1;
            }
            (Err(_), Some(_)) => {}
            (taken, unread) => panic!("{taken:?}, and {unread:?} by the second reader"),
        }
    }
    println!("{accepted} files are accepted");
    assert!(accepted > 200);
}

#[test]
fn wrapper_gives_the_rule_whole_or_the_refusal() {
    let mut random = Random::of_this_run();
    for number in 1..=500 {
        let job = job(&mut random, number);
        let file = filled(&mut random, job.file());
        let by_wrapper = rule(&file, &mut vec![3; WORK]).expect("the job has a rule");
        assert_eq!(Ok(&by_wrapper), taken(GUARDED, &file).as_ref());
        let mut record = Record {
            state: job.states() as u64 - 1,
            alarms: 5,
        };
        let last = job.symbols - 1;
        let next = job.next[job.states() - 1][last as usize];
        let wanted = match job.finals[next as usize] {
            1 => Report::Alarm,
            _ => Report::Quiet,
        };
        assert_eq!(by_wrapper.event(last, &mut record), Ok(wanted));
        assert_eq!(record.state, next);
        assert_eq!(by_wrapper.event(job.symbols, &mut record), Err(Refusal(14)));
        let cut = &file[..file.len() - 1];
        assert_eq!(rule(cut, &mut vec![3; WORK]), Err(Refusal(4)));
        assert_eq!(rule(&file, &mut vec![3; WORK - 1]), Err(Refusal(2)));
    }
}
