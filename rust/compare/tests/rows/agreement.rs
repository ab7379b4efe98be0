//! The library and the second implementation on the same calls.
use dapohiru_compare::compared::{self, samples_agree, Compared};
use dapohiru_compare::library::{CALLS, GUARDED};
use dapohiru_compare::memory::Counts;
use dapohiru_compare::on_file::OnFile;
use dapohiru_compare::rows::{cases, refused, Case, Memory};
use dapohiru_compare::wrapper::WRAPPER;
use dapohiru_generators::random::Random;
use dapohiru_generators::rows;
use dapohiru_plain::rows as plain;
use dapohiru_second::rows::{Given, Row};
use std::collections::BTreeSet;

/// Calls that the two are compared on.
pub type Calls = compared::Calls<Case>;

/// A rule, and every refusal of the call.
pub const ALL: [Option<u64>; 5] = [None, Some(13), Some(17), Some(18), Some(19)];

/// The table that rows make, each written over those before it.
pub fn painted(rows: &[Row]) -> Vec<u8> {
    let mut table = vec![0; 256];
    for row in rows {
        let ([first, last], [low, high]) = (row.states, row.symbols);
        for state in first..=last {
            for symbol in low..=high {
                table[(16 * state + symbol) as usize] = row.next as u8;
            }
        }
    }
    table
}

#[test]
fn random_texts_agree() {
    let mut random = Random::of_this_run();
    samples_agree(4_000, ALL, |_| cases(&mut random));
}

#[test]
fn all_texts_of_at_most_two_rows_agree_where_there_are_at_most_two_states_and_symbols() {
    // every row whose numbers are 0, 1 or 2
    let row = |mut number: usize| {
        let mut field = || {
            let digit = number % 3;
            number /= 3;
            digit as u64
        };
        Row {
            states: [field(), field()],
            symbols: [field(), field()],
            next: field(),
        }
    };
    let every: Vec<_> = (0..3_usize.pow(5)).map(row).collect();
    let mut texts = vec![vec![]];
    texts.extend(every.iter().map(|&row| vec![row]));
    for &one in &every {
        texts.extend(every.iter().map(|&other| vec![one, other]));
    }
    let mut memory = Memory::new(CALLS);
    let mut counts = Counts::default();
    for (states, symbols) in [(1, 1), (1, 2), (2, 1), (2, 2)] {
        let given = Given {
            states,
            symbols,
            finals: 1,
        };
        for rows in &texts {
            let case = Case::of(given, rows);
            let compared = case.compare(&mut memory, None);
            let seen = counts.agree("two rows", compared, |seen| refused(seen.number));
            if refused(seen.number).is_none() {
                assert_eq!(seen.table(), Some(painted(rows)));
            }
        }
    }
    counts.print("all texts of two rows");
    counts.came([None, Some(17), Some(18), Some(19)]);
}

#[test]
fn plain_program_of_the_benchmark_agrees() {
    let mut random = Random::of_this_run();
    for _ in 0..2_000 {
        for case in cases(&mut random) {
            let Given {
                states,
                symbols,
                finals,
            } = case.given;
            let (mut ours, mut theirs) = (vec![99; case.rule_len], vec![99; case.rule_len]);
            let number = (CALLS.rows)(&case.text, states, symbols, finals, &mut ours);
            let made = plain::rows(&case.text, states, symbols, finals, &mut theirs);
            assert_eq!(made.err(), refused(number), "{}", case.words());
            assert_eq!(ours, theirs, "{}", case.words());
        }
    }
}

#[test]
fn rows_that_name_every_pair_once_make_the_rule_that_they_paint() {
    let mut random = Random::of_this_run();
    let mut calls = Calls::new();
    let (mut sizes, mut counts) = (BTreeSet::new(), BTreeSet::new());
    for number in 0..4_096 {
        // every count of states and of symbols
        let (states, symbols) = (1 + number % 16, 1 + number / 16 % 16);
        let given = Given {
            states,
            symbols,
            finals: random.set(states),
        };
        let (given, rows) = match number {
            0 => rows::most_rows(&mut random),
            _ => (given, rows::rows(&mut random, given)),
        };
        sizes.insert((given.states, given.symbols));
        counts.insert(rows.len());
        let case = Case::of(given, &rows).with_zeros(&mut random);
        let seen = calls.agree(format_args!("sample {number}"), &case);
        assert_eq!(seen.number, dapohiru::numbers::ACCEPTED);
        assert_eq!(seen.table(), Some(painted(&rows)));
    }
    println!("{} sizes, {} counts of rows", sizes.len(), counts.len());
    assert_eq!(sizes.len(), 256);
    assert!(counts.contains(&1) && counts.contains(&256) && counts.len() > 60);
}

#[test]
fn order_of_rows_makes_no_difference() {
    let mut random = Random::of_this_run();
    let mut calls = Calls::new();
    for number in 0..300 {
        let given = rows::given(&mut random);
        let mut all = rows::rows(&mut random, given);
        match number % 3 {
            0 => rows::name_twice(&mut random, given, &mut all),
            1 => rows::leave_out(&mut random, &mut all),
            _ => {}
        }
        let first = calls.agree("one order", &Case::of(given, &all));
        for _ in 0..3 {
            random.shuffle(&mut all);
            let seen = calls.agree("another", &Case::of(given, &all));
            assert_eq!(seen, first);
        }
    }
    calls.counts.print("any order");
    calls.counts.came([None, Some(18), Some(19)]);
}

#[test]
fn answer_does_not_depend_on_what_the_rule_buffer_holds() {
    let mut random = Random::of_this_run();
    for _ in 0..400 {
        let cases = cases(&mut random);
        for Case { text, given, .. } in cases {
            let mut any = [0; 256];
            random.fill(&mut any);
            let left = [[0; 256], [1; 256], [255; 256], any].map(|before| {
                let mut rule = before;
                let number =
                    (GUARDED.rows)(&text, given.states, given.symbols, given.finals, &mut rule);
                match refused(number) {
                    Some(_) => assert_eq!(rule, before),
                    None => assert!(rule.iter().all(|&next| u64::from(next) < given.states)),
                }
                (number, refused(number).is_none().then_some(rule))
            });
            assert!(left.iter().all(|one| one == &left[0]));
        }
    }
}

#[test]
fn one_call_leaves_nothing_for_the_next() {
    let mut random = Random::of_this_run();
    let mut memory = Memory::new(WRAPPER);
    let mut calls = Vec::new();
    for _ in 0..200 {
        calls.extend(cases(&mut random));
    }
    let mut seen = |case: &Case| {
        let seen = memory.call(&case.text, case.given, case.rule_len);
        seen.unwrap()
    };
    let first: Vec<_> = calls.iter().map(&mut seen).collect();
    for _ in 0..2 * calls.len() {
        let place = random.place(calls.len());
        assert_eq!(seen(&calls[place]), first[place]);
    }
}
