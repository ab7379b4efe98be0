//! Every refusal, alone and beside other faults.
use crate::agreement::{Calls, ALL};
use dapohiru::Refusal;
use dapohiru_compare::compared::Compared;
use dapohiru_compare::expression::Case;
use dapohiru_compare::wrapper;
use dapohiru_generators::expressions;
use dapohiru_generators::random::Random;

/// The refusals of the call, in the order in which they are tested.
const ORDER: [u64; 3] = [13, 20, 21];

#[test]
fn lowest_of_all_faults_decides_and_leaves_the_rule_buffer() {
    let mut random = Random::of_this_run();
    let mut calls = Calls::new();
    // every choice of faults
    for choice in 1..8_u32 {
        let has = |place: usize| choice >> place & 1 == 1;
        let faults: Vec<_> = (0..3).filter(|&place| has(place)).collect();
        let faults: Vec<_> = faults.into_iter().map(|place| ORDER[place]).collect();
        for _ in 0..300 {
            let symbols = expressions::symbols(&mut random);
            let case = Case::with_faults(&mut random, symbols, &faults);
            let seen = calls.agree(format_args!("{faults:?}"), &case);
            assert_eq!(seen.number, faults[0], "{faults:?}: {}", case.words());
            assert_eq!(seen.written, vec![], "{faults:?}");
        }
    }
    calls.counts.print("choices of faults");
    calls.counts.came(ORDER.map(Some));
}

#[test]
fn every_answer_comes_for_every_count_of_symbols() {
    let mut random = Random::of_this_run();
    for symbols in 1..=16 {
        let mut calls = Calls::new();
        for _ in 0..20 {
            for faults in [&[][..], &[13], &[20], &[21]] {
                let case = Case::with_faults(&mut random, symbols, faults);
                calls.agree(format_args!("{faults:?}"), &case);
            }
        }
        calls.counts.came(ALL);
    }
}

#[test]
fn wrapper_gives_the_rule_whole_or_the_refusal() {
    let mut random = Random::of_this_run();
    for _ in 0..300 {
        let symbols = expressions::symbols(&mut random);
        let case = Case::with_faults(&mut random, symbols, &[]);
        let wanted = case.wanted(None);
        let made = wrapper::expression(&case.text, symbols);
        match wanted.number.checked_sub(1 << 48) {
            Some(numbers) => {
                let rule = made.expect("it is made");
                assert_eq!((rule.states << 16) + rule.finals, numbers);
                assert_eq!(rule.symbols, symbols);
                assert_eq!(Some(rule.table.to_vec()), wanted.table());
            }
            None => assert_eq!(made, Err(Refusal(21))),
        }
        let past = expressions::wrong_symbols(&mut random, symbols);
        assert_eq!(wrapper::expression(&case.text, past), Err(Refusal(20)));
        let open = [&b"("[..], &case.text].concat();
        assert_eq!(wrapper::expression(&open, symbols), Err(Refusal(20)));
    }
}
