//! What a call leaves in the work buffer, and that it does not depend on what is there.
use dapohiru_compare::checking::{cases, Case, Said};
use dapohiru_compare::memory::Counts;
use dapohiru_compare::wrapper::WRAPPER;
use dapohiru_generators::faults::{refused, NUMBERS};
use dapohiru_generators::random::Random;
use dapohiru_generators::samples::{pair, turn};
use dapohiru_generators::small;
use dapohiru_second::reading::{LONGEST, WORK};

/// The plan check of the library, by number.
fn check(job: &[u8], plan: &[u8], work: &mut [u8]) -> u64 {
    (WRAPPER.check)(job, plan, work)
}

#[test]
fn work_buffer_is_unchanged_after_1_and_2_and_else_zero_in_its_first_65536_bytes_alone() {
    let mut random = Random::of_this_run();
    let job = pair();
    let mut files = vec![job.file(), vec![b' '; LONGEST + 1]];
    files.extend(NUMBERS.map(|number| refused(&mut random, &job, number)));
    // faithful, different, 11, 12
    let plans: [&[u8]; 4] = [&[1, 1, 1], &[0, 0, 1], &[1, 1], &[1, 1, 2]];
    let mut counts = Counts::default();
    for file in &files {
        for plan in plans {
            for work_len in [0, WORK - 1, WORK, WORK + 1, 70_000] {
                for fill in 0..4 {
                    let mut before = vec![[0, 255, 1, 0][fill]; work_len];
                    if fill == 3 {
                        random.fill(&mut before);
                    }
                    let mut after = before.clone();
                    let said = Said::of(check(file, plan, &mut after));
                    let mut wanted = before;
                    if !matches!(said, Said::Refused(1 | 2)) {
                        wanted[..WORK].fill(0);
                    }
                    assert!(after == wanted, "after {said:?} of {work_len} bytes");
                    counts.add(said);
                }
            }
        }
    }
    counts.print("work buffers");
    counts.came(Said::all());
}

#[test]
fn answer_does_not_depend_on_what_the_work_buffer_holds() {
    let mut random = Random::of_this_run();
    let mut calls = 0;
    let mut any = vec![0; WORK];
    for _ in 0..60 {
        let job = small::job(&mut random);
        for Case { on, plan, .. } in cases(&mut random, &job) {
            random.fill(&mut any);
            let works = [vec![0; WORK], vec![1; WORK], vec![255; WORK], any.clone()];
            let answers = works.map(|mut work| check(&on.file, &plan, &mut work));
            assert!(answers.iter().all(|answer| answer == &answers[0]));
            calls += 1;
        }
    }
    println!("{calls} calls");
}

#[test]
fn empty_buffers_are_lent_too() {
    assert_eq!(Said::of(check(b"", b"", &mut [])), Said::Refused(2));
    let mut work = vec![1; WORK];
    assert_eq!(Said::of(check(b"", b"", &mut work)), Said::Refused(3));
    let file = pair().file();
    assert_eq!(Said::of(check(&file, b"", &mut work)), Said::Refused(11));
}

#[test]
fn one_call_leaves_nothing_for_the_next() {
    let mut work = vec![7; WORK];
    let (pair, turn) = (pair().file(), turn().file());
    for _ in 0..3 {
        let answers = [
            check(&turn, &[0, 1, 1], &mut work),
            check(&pair, &[0, 0, 1], &mut work),
            check(&turn, &[0, 0, 1], &mut work),
            check(&pair, &[1, 0], &mut work),
            check(&pair, &[1, 0, 1], &mut work),
        ];
        let wanted = [
            Said::Different,
            Said::Different,
            Said::Faithful,
            Said::Refused(11),
            Said::Faithful,
        ];
        assert_eq!(answers.map(Said::of), wanted);
    }
}
