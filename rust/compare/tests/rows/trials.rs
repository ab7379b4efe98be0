//! Rules from rows written by hand, and the rules of trial jobs in rows, held to the stored ones.
use crate::agreement::Calls;
use dapohiru::numbers::ACCEPTED;
use dapohiru_compare::rows::{refused, Case};
use dapohiru_generators::rows::of_rule;
use dapohiru_generators::samples::{in_loop, pair, sixteen, turn};
use dapohiru_generators::zeros::zero_filled;
use dapohiru_second::rows::{text, Given, Row};
use std::collections::BTreeMap;

/// The rules of trial jobs, which the call for a job's rule is held to.
const STORED: &str = include_str!("../expected/rules.txt");

/// So many states and symbols, of which no state is final.
fn sizes(states: u64, symbols: u64) -> Given {
    Given {
        states,
        symbols,
        finals: 0,
    }
}

/// The row with these numbers.
fn row(states: [u64; 2], symbols: [u64; 2], next: u64) -> Row {
    Row {
        states,
        symbols,
        next,
    }
}

/// What a call leaves, with spaces and with zeros before the text's numbers: the table, or the refusal.
#[track_caller]
fn made(calls: &mut Calls, given: Given, text: &[u8]) -> Result<Vec<u8>, u64> {
    let spaced = calls.agree("spaces", &Case::of_text(given, text.to_vec()));
    let zeros = Case::of_text(given, zero_filled(text.to_vec()));
    assert_eq!(calls.agree("zeros", &zeros), spaced);
    match refused(spaced.number) {
        None => {
            assert_eq!(spaced.number, ACCEPTED);
            Ok(spaced.table().expect("every byte is written"))
        }
        Some(number) => {
            assert_eq!(spaced.written, vec![]);
            Err(number)
        }
    }
}

/// The table that has these next states, and zeros past them.
fn table(next: &[&[u8]]) -> Vec<u8> {
    let mut table = vec![0; 256];
    for (row, next) in table.chunks_mut(16).zip(next) {
        row[..next.len()].copy_from_slice(next);
    }
    table
}

/// PAIR's rule, in four rows.
const PAIR: &[u8] = b"\
Q     0     2     0     0     1
Q     0     2     1     1     0
Q     0     0     2     2     0
Q     1     2     2     2     2
";
const OF_PAIR: Given = Given {
    states: 3,
    symbols: 3,
    finals: 0b100,
};

#[test]
fn rule_of_pair_in_few_rows_is_its_three_rows_and_zeros() {
    let mut calls = Calls::new();
    let wanted = table(&[&[1, 0, 0], &[1, 0, 2], &[1, 0, 2]]);
    assert_eq!(made(&mut calls, OF_PAIR, PAIR), Ok(wanted.clone()));
    // the last row first
    let in_another_order = [&PAIR[96..], &PAIR[..96]].concat();
    assert_eq!(made(&mut calls, OF_PAIR, &in_another_order), Ok(wanted));
}

#[test]
fn rules_of_trial_jobs_in_rows_are_those_stored_byte_for_byte() {
    let mut stored = BTreeMap::new();
    let mut lines = STORED.lines();
    while let Some((name, _)) = lines.next().and_then(|line| line.split_once(':')) {
        let cells = lines.by_ref().take(16).flat_map(str::split_whitespace);
        let cells: Vec<u8> = cells.map(|cell| cell.parse().unwrap()).collect();
        assert_eq!(cells.len(), 256);
        stored.insert(name, cells);
    }
    let mut calls = Calls::new();
    let jobs = [
        ("PAIR", pair()),
        ("LOOP", in_loop()),
        ("TURN", turn()),
        ("sixteen", sixteen()),
    ];
    assert_eq!(stored.len(), jobs.len());
    for (name, job) in jobs {
        let (given, rows) = of_rule(&job);
        println!("{name}: {} rows", rows.len());
        let made = made(&mut calls, given, &text(&rows));
        assert_eq!(made.as_ref(), Ok(&stored[name]), "{name}");
    }
}

#[test]
fn one_row_for_all_fills_the_pairs_and_no_other_cell() {
    let mut calls = Calls::new();
    for states in 1..=16 {
        for symbols in 1..=16 {
            let rows = [row([0, states - 1], [0, symbols - 1], states - 1)];
            let next = vec![states as u8 - 1; symbols as usize];
            let wanted = table(&vec![&next[..]; states as usize]);
            let made = made(&mut calls, sizes(states, symbols), &text(&rows));
            assert_eq!(made, Ok(wanted), "{states} states, {symbols} symbols");
        }
    }
}

/// A row for each pair of sixteen states and symbols.
fn every_cell() -> Vec<Row> {
    let next = |state: u64, symbol: u64| (3 * state + 5 * symbol + 1) % 16;
    let cell = |place: u64| {
        let (state, symbol) = (place / 16, place % 16);
        row([state; 2], [symbol; 2], next(state, symbol))
    };
    (0..256).map(cell).collect()
}

#[test]
fn text_of_256_rows_is_read_and_one_byte_or_one_row_more_is_17() {
    let mut calls = Calls::new();
    let (all, rows) = (sizes(16, 16), every_cell());
    let whole = text(&rows);
    assert_eq!(whole.len(), dapohiru::ROWS_LEN);
    let wanted = (0..256).map(|place| ((3 * (place / 16) + 5 * (place % 16) + 1) % 16) as u8);
    assert_eq!(made(&mut calls, all, &whole), Ok(wanted.collect()));
    for more in [&b"\n"[..], b" ", b"Q", &whole[..32], &whole[..31], &whole] {
        let longer = [&whole, more].concat();
        assert_eq!(made(&mut calls, all, &longer), Err(17), "{}", longer.len());
    }
    // 8,193 bytes and more are not looked at, so that no row of them counts
    for len in [8_193, 8_224, 65_536, 65_536 + 8_192] {
        let mut longer = whole.repeat(9);
        longer.truncate(len);
        assert_eq!(made(&mut calls, all, &longer), Err(17), "{len}");
    }
    // one row fewer, and one twice in the place of another
    assert_eq!(made(&mut calls, all, &whole[32..]), Err(19));
    let mut doubled = whole.clone();
    doubled[32..64].copy_from_slice(&whole[..32]);
    assert_eq!(made(&mut calls, all, &doubled), Err(18));
}

#[test]
fn two_rows_that_meet_in_one_pair_are_18_though_they_agree() {
    let mut calls = Calls::new();
    for (one, other) in [(1, 1), (1, 0), (0, 0)] {
        // both name state 1 and symbol 1
        let rows = [
            row([0, 1], [0, 1], one),
            row([1, 2], [1, 2], other),
            row([0, 0], [2, 2], 0),
            row([2, 2], [0, 0], 0),
        ];
        assert_eq!(made(&mut calls, sizes(3, 3), &text(&rows)), Err(18));
        // without that pair each has its own
        let mut apart = rows.to_vec();
        apart[1] = row([2, 2], [1, 2], other);
        apart.push(row([1, 1], [2, 2], other));
        let apart = made(&mut calls, sizes(3, 3), &text(&apart));
        assert!(apart.is_ok(), "{apart:?}");
    }
    // the same row twice
    let twice = [row([0, 0], [0, 0], 0); 2];
    assert_eq!(made(&mut calls, sizes(1, 1), &text(&twice)), Err(18));
}

#[test]
fn row_that_stands_up_to_256_times_is_18() {
    let mut calls = Calls::new();
    for (states, symbols) in [(1, 1), (1, 2), (2, 1), (2, 2), (11, 11), (12, 11), (16, 16)] {
        let of_state = |state: u64| row([state; 2], [0, symbols - 1], state);
        let by_states: Vec<_> = (0..states).map(of_state).collect();
        for sound in [vec![row([0, states - 1], [0, symbols - 1], 0)], by_states] {
            let last = sound[sound.len() - 1];
            for count in 2..=256 {
                let mut texts = vec![vec![last; count]];
                if let Some(more) = count.checked_sub(sound.len()).filter(|&more| more > 0) {
                    let copies = vec![last; more];
                    texts.extend([
                        [&sound[..], &copies].concat(),
                        [&copies[..], &sound].concat(),
                    ]);
                }
                for rows in texts {
                    let case = Case::of(sizes(states, symbols), &rows);
                    let seen = calls.agree("copies", &case);
                    assert_eq!((seen.number, seen.written), (18, vec![]), "{count} rows");
                }
            }
        }
    }
}

#[test]
fn every_pair_that_has_two_rows_or_more_is_18() {
    let mut calls = Calls::new();
    for (states, symbols) in [
        (1, 1),
        (3, 2),
        (16, 7),
        (8, 16),
        (11, 13),
        (16, 15),
        (16, 16),
    ] {
        let given = sizes(states, symbols);
        let all = row([0, states - 1], [0, symbols - 1], 0);
        for place in 0..states * symbols {
            let pair = row([place / symbols; 2], [place % symbols; 2], states - 1);
            for copies in [1, 2, 3, 4, 127, 128, 255] {
                let rows = [vec![all], vec![pair; copies]].concat();
                let seen = calls.agree("one pair", &Case::of(given, &rows));
                assert_eq!((seen.number, seen.written), (18, vec![]), "{place}");
            }
        }
    }
}

#[test]
fn pair_without_a_row_is_19_and_so_is_no_row_at_all() {
    let mut calls = Calls::new();
    for states in [1, 2, 3, 16] {
        for symbols in [1, 2, 5, 16] {
            let given = sizes(states, symbols);
            assert_eq!(made(&mut calls, given, b""), Err(19));
            let cell = |state, symbol| row([state; 2], [symbol; 2], 0);
            let all: Vec<_> = (0..states)
                .flat_map(|state| (0..symbols).map(move |symbol| cell(state, symbol)))
                .collect();
            for place in 0..all.len() {
                let mut rows = all.clone();
                rows.remove(place);
                assert_eq!(made(&mut calls, given, &text(&rows)), Err(19), "{place}");
            }
        }
    }
}

#[test]
fn first_above_its_last_is_17_and_no_empty_row() {
    let mut calls = Calls::new();
    let sound = row([0, 2], [0, 2], 0);
    for empty in [
        row([1, 0], [0, 2], 0),
        row([2, 1], [0, 0], 0),
        row([0, 2], [1, 0], 0),
        row([0, 0], [2, 0], 0),
        row([2, 0], [2, 0], 0),
    ] {
        for rows in [[empty, sound], [sound, empty]] {
            assert_eq!(made(&mut calls, sizes(3, 3), &text(&rows)), Err(17));
        }
        assert_eq!(made(&mut calls, sizes(3, 3), &text(&[empty])), Err(17));
    }
}

#[test]
fn numbers_of_a_row_are_held_to_states_and_symbols() {
    let mut calls = Calls::new();
    // two states and three symbols: what a field may be at most, by field
    let sound = [0, 1, 0, 2, 0];
    for (field, most) in [1, 1, 2, 2, 1].into_iter().enumerate() {
        for number in (0..=20).chain([255, 256, 257, 65_535, 65_536, 65_537, 131_072, 999_999]) {
            let mut numbers = sound;
            numbers[field] = number;
            let [first, last, low, high, next] = numbers;
            let one = row([first, last], [low, high], next);
            let made = made(&mut calls, sizes(2, 3), &text(&[one]));
            let refusal = match number {
                _ if number > most => Some(17),
                _ if field < 4 && number != sound[field] => Some(19),
                _ => None,
            };
            assert_eq!(made.err(), refusal, "{number} in field {field}");
        }
    }
}

#[test]
fn states_symbols_and_finals_outside_their_limits_are_17() {
    let mut calls = Calls::new();
    let whole = text(&[row([0, 15], [0, 15], 3)]);
    let high = |low: u64| [8, 16, 32, 63].map(|bits| low + (1 << bits));
    let wrong = [0, 17, 18, 255, u64::MAX].into_iter();
    for count in wrong.chain(high(0)).chain(high(1)).chain(high(16)) {
        for given in [sizes(count, 16), sizes(16, count), sizes(count, count)] {
            assert_eq!(made(&mut calls, given, &whole), Err(17), "{given:?}");
            assert_eq!(made(&mut calls, given, b""), Err(17), "{given:?}");
        }
    }
    for states in 1..=16 {
        let rows = text(&[row([0, states - 1], [0, 0], 0)]);
        for bit in 0..64 {
            let given = Given {
                finals: 1 << bit,
                ..sizes(states, 1)
            };
            let refusal = (bit >= states).then_some(17);
            assert_eq!(made(&mut calls, given, &rows).err(), refusal, "{given:?}");
            assert_eq!(
                made(&mut calls, given, b"").err(),
                refusal.or(Some(19)),
                "{given:?}"
            );
        }
        let all = Given {
            finals: (1 << states) - 1,
            ..sizes(states, 1)
        };
        assert!(made(&mut calls, all, &rows).is_ok());
    }
}
