//! Files of jobs with random damage: the second reader says what each of them deserves.
use crate::agreement::Calls;
use dapohiru_compare::serving::{Case, Said};
use dapohiru_generators::damage::Damaged;
use dapohiru_generators::random::Random;
use dapohiru_second::serving::{Given, Service};
use dapohiru_second::walk::Walks;

#[test]
fn damaged_files_are_refused_or_planned_for_what_they_spell() {
    const FILES: usize = 12_000;
    let mut random = Random::fixed(12);
    let mut calls = Calls::new();
    for number in 0..FILES {
        let damaged = Damaged::random(&mut random);
        let given = Given::of(&Walks::new(&damaged.job, None));
        for case in Service::BOTH.map(|service| Case::of_damaged(&mut random, service, &damaged)) {
            calls.agree(format_args!("file {number}"), &given, &case);
        }
    }
    let counts = calls.counts;
    counts.print(&format!("{FILES} files"));
    counts.came((3..=10).map(Said::Refused));
    assert!(counts.of(Said::Planned) as usize * 20 > FILES);
}
