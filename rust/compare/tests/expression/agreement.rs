//! The library and the second implementation on the same calls.
use dapohiru_compare::compared::{self, samples_agree, Compared};
use dapohiru_compare::expression::{cases, refused, Case, Memory};
use dapohiru_compare::library::{CALLS, GUARDED};
use dapohiru_compare::wrapper::WRAPPER;
use dapohiru_generators::expressions;
use dapohiru_generators::random::Random;
use dapohiru_plain::expression as plain;
use std::collections::BTreeSet;

/// Calls that the two are compared on.
pub type Calls = compared::Calls<Case>;

/// A rule, and every refusal of the call.
pub const ALL: [Option<u64>; 4] = [None, Some(13), Some(20), Some(21)];

#[test]
fn random_texts_agree() {
    let mut random = Random::of_this_run();
    samples_agree(2_000, ALL, |_| cases(&mut random));
}

#[test]
fn sound_texts_of_all_symbols_and_lengths_agree() {
    let mut random = Random::of_this_run();
    let mut calls = Calls::new();
    let [mut sizes, mut lengths] = [(); 2].map(|()| BTreeSet::new());
    for number in 0..6_000 {
        let symbols = 1 + number % 16;
        let text = expressions::sound(&mut random, symbols);
        lengths.insert(text.len() as u64);
        let seen = calls.agree(format_args!("sample {number}"), &Case::of(&text, symbols));
        match refused(seen.number) {
            None => {
                sizes.insert(seen.number >> 16 & 0xffff);
                assert_eq!(seen.number >> 32, 1 << 16);
                assert_eq!(seen.written.len(), 256);
            }
            Some(number) => assert_eq!((number, seen.written), (21, vec![])),
        }
    }
    calls.counts.print("sound texts");
    println!(
        "{} counts of states, {} lengths",
        sizes.len(),
        lengths.len()
    );
    assert_eq!(sizes, (2..=16).collect());
    assert!(lengths.len() > 50 && lengths.contains(&1) && lengths.contains(&64));
}

#[test]
fn plain_program_of_the_benchmark_agrees() {
    let mut random = Random::of_this_run();
    for _ in 0..2_000 {
        for case in cases(&mut random) {
            let (mut ours, mut theirs) = (vec![99; case.rule_len], vec![99; case.rule_len]);
            let number = (CALLS.expression)(&case.text, case.symbols, &mut ours);
            let made = plain::expression(&case.text, case.symbols, &mut theirs);
            let made = made.map(|(states, finals)| (1 << 48) + (states << 16) + finals);
            assert_eq!(
                made.unwrap_or_else(|number| number),
                number,
                "{}",
                case.words()
            );
            assert_eq!(ours, theirs, "{}", case.words());
        }
    }
}

#[test]
fn answer_does_not_depend_on_what_the_rule_buffer_holds() {
    let mut random = Random::of_this_run();
    for _ in 0..300 {
        for Case { text, symbols, .. } in cases(&mut random) {
            let mut any = [0; 256];
            random.fill(&mut any);
            let left = [[0; 256], [1; 256], [255; 256], any].map(|before| {
                let mut rule = before;
                let number = (GUARDED.expression)(&text, symbols, &mut rule);
                let states = number >> 16 & 0xffff;
                match refused(number) {
                    Some(_) => assert_eq!(rule, before),
                    None => assert!(rule.iter().all(|&next| u64::from(next) < states)),
                }
                (number, refused(number).is_none().then_some(rule))
            });
            assert!(left.iter().all(|one| one == &left[0]));
        }
    }
}

#[test]
fn one_call_leaves_nothing_for_the_next() {
    let mut random = Random::of_this_run();
    let mut memory = Memory::new(WRAPPER);
    let mut calls = Vec::new();
    for _ in 0..100 {
        calls.extend(cases(&mut random));
    }
    let mut seen = |case: &Case| case.seen(&mut memory).unwrap();
    let first: Vec<_> = calls.iter().map(&mut seen).collect();
    for _ in 0..2 * calls.len() {
        let place = random.place(calls.len());
        assert_eq!(seen(&calls[place]), first[place]);
    }
}
