//! Every refusal, alone and beside other faults, and the rows in every order.
use crate::agreement::{Calls, ALL};
use dapohiru_compare::compared::Compared;
use dapohiru_compare::rows::Case;
use dapohiru_generators::random::Random;
use dapohiru_generators::rows;
use dapohiru_second::job::{spell, Line};
use dapohiru_second::rows::{lines, Given, Row};

/// The refusals of the call, in the order in which they are tested.
const ORDER: [u64; 4] = [13, 17, 18, 19];

#[test]
fn lowest_of_all_faults_decides_and_leaves_the_rule_buffer() {
    let mut random = Random::of_this_run();
    let mut calls = Calls::new();
    // every choice of faults
    for choice in 1..16_u32 {
        let has = |place: usize| choice >> place & 1 == 1;
        let faults: Vec<_> = (0..4).filter(|&place| has(place)).collect();
        let faults: Vec<_> = faults.into_iter().map(|place| ORDER[place]).collect();
        for number in 0..400 {
            let given = match number % 8 {
                0 => rows::most_rows(&mut random).0,
                _ => rows::given(&mut random),
            };
            if given.states * given.symbols == 1 && faults.ends_with(&[18, 19]) {
                continue;
            }
            let sound = rows::rows(&mut random, given);
            let case = Case::with_faults(&mut random, given, &sound, &faults);
            let seen = calls.agree(format_args!("{faults:?}"), &case);
            assert_eq!(seen.number, faults[0], "{faults:?}: {}", case.words());
            assert_eq!(seen.written, vec![], "{faults:?}");
        }
    }
    calls.counts.print("choices of faults");
    calls.counts.came(ORDER.map(Some));
}

const GIVEN: Given = Given {
    states: 3,
    symbols: 3,
    finals: 0b100,
};

/// A row for each state.
fn by_states() -> Vec<Line> {
    let row = |state: u64| Row {
        states: [state; 2],
        symbols: [0, 2],
        next: state,
    };
    lines(&[0, 1, 2].map(row))
}

/// Each line that is refused for itself: the row of state 0 and another number in a field, or another letter.
fn wrong_lines() -> Vec<Line> {
    let numbers = [(0, 1), (0, 3), (1, 3), (2, 3), (3, 3), (4, 3), (4, 999_999)];
    let row = &by_states()[0];
    let mut wrong: Vec<_> = numbers
        .iter()
        .map(|&(field, number)| {
            let mut line = row.clone();
            line.numbers[field] = number;
            line
        })
        .collect();
    for letter in [b'q', b'R', b'V', b' ', b'\n', 0] {
        wrong.push(Line {
            letter,
            ..row.clone()
        });
    }
    wrong
}

#[test]
fn row_that_is_refused_is_17_before_and_after_rows_of_one_pair_and_without_some() {
    let mut calls = Calls::new();
    let sound = by_states();
    let wrong = wrong_lines();
    for line in &wrong {
        for place in 0..=6 {
            // with every row once, with one missing, with one twice at either end, with all twice
            for rows in [
                sound.clone(),
                sound[1..].to_vec(),
                [&sound[..], &sound[2..]].concat(),
                [&sound[2..], &sound[..]].concat(),
                [&sound[..], &sound[..]].concat(),
                [&sound[..1], &sound[..1]].concat(),
            ] {
                let mut lines = rows;
                lines.insert(place.min(lines.len()), line.clone());
                let case = Case::of_text(GIVEN, spell(&lines));
                let seen = calls.agree("a wrong row", &case);
                assert_eq!(seen.number, 17, "{}", case.words());
            }
        }
    }
    calls.counts.print("wrong rows at all places");
}

#[test]
fn pair_with_two_rows_is_18_though_another_has_none_in_any_order() {
    let mut calls = Calls::new();
    let rows = by_states();
    // every choice of three rows out of three
    for choice in 0..27_usize {
        let places = [choice / 9, choice / 3 % 3, choice % 3];
        let case = Case::of_text(GIVEN, spell(&places.map(|place| rows[place].clone())));
        let seen = calls.agree("three rows", &case);
        let mut sorted = places;
        sorted.sort_unstable();
        let is_twice = sorted[0] == sorted[1] || sorted[1] == sorted[2];
        assert_eq!(seen.number == 18, is_twice, "{places:?}");
        assert_eq!(seen.written.is_empty(), is_twice, "{places:?}");
    }
    calls.counts.print("three rows in every order");
    calls.counts.came([None, Some(18)]);
}

#[test]
fn wrong_length_of_the_rule_buffer_is_13_whatever_else_is_wrong() {
    let mut random = Random::of_this_run();
    let mut calls = Calls::new();
    let wrong = Given {
        states: 17,
        ..GIVEN
    };
    let sound = spell(&by_states());
    for rule_len in [0, 1, 255, 257, 512] {
        for given in [GIVEN, wrong, rows::wrong_given(&mut random, GIVEN)] {
            for text in [&sound[..], b"", b"Q", &sound.repeat(200), &sound[..32]] {
                let case = Case {
                    rule_len,
                    ..Case::of_text(given, text.to_vec())
                };
                let seen = calls.agree("another length", &case);
                assert_eq!((seen.number, seen.written), (13, vec![]));
            }
        }
    }
}

#[test]
fn every_answer_comes_for_every_count_of_states() {
    let mut random = Random::of_this_run();
    for states in 1..=16 {
        let mut calls = Calls::new();
        for _ in 0..60 {
            let given = Given {
                states,
                symbols: random.between(2, 16),
                finals: random.set(states),
            };
            let sound = rows::rows(&mut random, given);
            for faults in [&[][..], &[13], &[17], &[18], &[19]] {
                let case = Case::with_faults(&mut random, given, &sound, faults);
                calls.agree(format_args!("{faults:?}"), &case);
            }
        }
        calls.counts.came(ALL);
        assert_eq!(calls.counts.of(None), 60);
    }
}
