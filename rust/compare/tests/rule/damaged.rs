//! Files of jobs with damage: the second reader says what each of them deserves.
use crate::agreement::Calls;
use dapohiru_compare::compared::Compared;
use dapohiru_compare::damage;
use dapohiru_compare::ruling::{Case, Said};
use dapohiru_generators::damage::Damaged;
use dapohiru_generators::random::Random;
use dapohiru_generators::samples::pair;
use dapohiru_generators::zeros::{filled, zero_filled};
use dapohiru_second::job::spell;
use dapohiru_second::reading;

/// The call on a file, of which the second reader says what it holds.
fn case_of(file: Vec<u8>) -> Case {
    let read = reading::job(&file);
    let unread = read.as_ref().err().copied();
    let mut case = Case::of(&read.unwrap_or_else(|_| pair()));
    (case.on.file, case.on.unread) = (file, unread);
    case
}

#[test]
fn damaged_files_are_refused_or_give_the_rule_that_they_spell() {
    const FILES: usize = 12_000;
    let mut random = Random::of_this_run();
    let mut calls = Calls::new();
    for number in 0..FILES {
        let damaged = Damaged::random(&mut random);
        let case = Case::of_damaged(&mut random, &damaged);
        calls.agree(format_args!("file {number}"), &case);
        if random.once_in(4) {
            let case = case.with_fault(&mut random, 13);
            calls.agree(format_args!("file {number}"), &case);
        }
    }
    calls.counts.print(&format!("{FILES} files"));
    calls.counts.came((3..=10).chain([13]).map(Said::Refused));
    assert!(calls.counts.of(Said::Taken) as usize * 20 > FILES);
}

#[test]
fn every_damage_of_pair_agrees() {
    let mut random = Random::of_this_run();
    let lines = pair().lines();
    let whole = spell(&lines);
    let files = [
        damage::bytes_replaced(&whole, damage::BYTES),
        damage::bytes_replaced(&zero_filled(whole.clone()), damage::BYTES),
        damage::bytes_moved(&whole, b" 01\n\r"),
        damage::lines_moved(&lines),
        damage::numbers_replaced(&lines, damage::sizes(&lines)),
        damage::fields_misspelled(&lines),
        damage::shape_changed(&lines),
        (0..whole.len()).map(|cut| whole[..cut].to_vec()).collect(),
    ];
    let mut calls = Calls::new();
    for file in files.concat() {
        let name = file.escape_ascii().to_string();
        calls.agree(&name, &case_of(filled(&mut random, file.clone())));
        calls.agree(&name, &case_of(file));
    }
    calls.counts.print("PAIR, damaged");
    calls.counts.came((3..=10).map(Said::Refused));
    assert!(calls.counts.of(Said::Taken) > 500);
}

#[test]
fn every_number_of_the_rule_shows_in_its_cell_and_no_other() {
    // each R line's next states and final mark, in turn every value that they may have
    let mut calls = Calls::new();
    let before = case_of(pair().file()).wanted(None);
    let before = (before.number, before.table().expect("a whole rule"));
    for state in 0..3 {
        for (symbol, next) in (0..3).flat_map(|symbol| (0..3).map(move |next| (symbol, next))) {
            let mut job = pair();
            job.next[state][symbol] = next;
            let seen = calls.agree("another cell", &Case::of(&job));
            let mut wanted = before.clone();
            wanted.1[16 * state + symbol] = next as u8;
            assert_eq!((seen.number, seen.table()), (wanted.0, Some(wanted.1)));
        }
        let mut job = pair();
        job.finals[state] = 1 - job.finals[state];
        let seen = calls.agree("another final mark", &Case::of(&job));
        assert_eq!(seen.number, before.0 ^ 1 << state);
        assert_eq!(seen.table(), Some(before.1.clone()));
    }
}
