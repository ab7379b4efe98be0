//! The library and the second implementation on the same calls.
use dapohiru_compare::compared::{self, Compared};
use dapohiru_compare::library::GUARDED;
use dapohiru_compare::ruling::{cases, Case, Said};
use dapohiru_generators::mixed;
use dapohiru_generators::random::Random;
use dapohiru_generators::sized::{self, Sizes, FULL};
use dapohiru_second::job::Job;
use std::collections::BTreeSet;

/// Calls that the two are compared on.
pub type Calls = compared::Calls<Case>;

/// A job: a small one, one of any sizes, one with 512 nodes or one with the longest file.
pub fn job(random: &mut Random, number: usize) -> Job {
    match number % 4 {
        0 if number.is_multiple_of(400) => mixed::full_job(random, number / 400, 2),
        0 => mixed::small_job(random),
        1 => {
            // every count of states and of symbols
            let sizes = Sizes {
                states: 1 + number as u64 / 4 % 16,
                symbols: 1 + number as u64 / 64 % 16,
                ..Sizes::random(random)
            };
            sized::job(random, sizes)
        }
        _ => {
            let sizes = Sizes::random(random);
            sized::job(random, sizes)
        }
    }
}

#[test]
fn jobs_of_all_sizes_agree() {
    const JOBS: usize = 4_096;
    let mut random = Random::of_this_run();
    let mut calls = Calls::new();
    let (mut counts, mut finals) = (BTreeSet::new(), BTreeSet::new());
    for number in 0..JOBS {
        let job = job(&mut random, number);
        counts.insert((job.states(), job.symbols));
        let last = job.finals.last().copied();
        finals.insert((job.states(), last));
        for case in cases(&mut random, &job) {
            calls.agree(format_args!("job {number}"), &case);
        }
    }
    calls.counts.print(&format!("{JOBS} jobs"));
    calls.counts.came(Said::all());
    println!("{} counts of states and symbols", counts.len());
    assert_eq!(counts.len(), 256);
    // the last state final and not, for every count of states
    assert_eq!(finals.len(), 32);
}

#[test]
fn longest_file_agrees() {
    let mut random = Random::of_this_run();
    let mut calls = Calls::new();
    for number in 0..40 {
        let job = sized::job(&mut random, FULL);
        for case in cases(&mut random, &job) {
            calls.agree(format_args!("job {number}"), &case);
        }
    }
    calls.counts.print("the longest file");
    assert!(calls.counts.of(Said::Taken) >= 80);
}

#[test]
fn answer_does_not_depend_on_what_the_buffers_hold() {
    let mut random = Random::of_this_run();
    let mut any = vec![0; 65_536];
    for number in 0..200 {
        let job = job(&mut random, number + 1);
        let file = job.file();
        random.fill(&mut any);
        let fills = [vec![0; 65_536], vec![1; 65_536], vec![255; 65_536], any];
        let answers = fills.each_ref().map(|fill| {
            let (mut work, mut rule) = (fill.clone(), fill[..256].to_vec());
            let number = (GUARDED.rule)(&file, &mut work, &mut rule);
            assert!(work.iter().all(|&byte| byte == 0));
            (number, rule)
        });
        assert!(answers.iter().all(|answer| answer == &answers[0]));
        [_, _, _, any] = fills;
    }
}

#[test]
fn one_call_leaves_nothing_for_the_next() {
    let mut random = Random::of_this_run();
    let (mut work, mut rule) = (vec![7; 65_536], [7; 256]);
    for number in 0..400 {
        let job = job(&mut random, number + 1);
        let case = Case::of(&job);
        let wanted = case.wanted(None);
        let answer = (GUARDED.rule)(&case.on.file, &mut work, &mut rule);
        assert_eq!(
            (answer, Some(rule.to_vec())),
            (wanted.number, wanted.table())
        );
        // a refused one, too
        let cut = &case.on.file[..case.on.file.len() - 1];
        assert_eq!((GUARDED.rule)(cut, &mut work, &mut rule), 4);
        assert_eq!(Some(rule.to_vec()), wanted.table());
    }
}
