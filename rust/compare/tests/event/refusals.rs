//! Refusals 13 to 15, their order, and what is no fault.
use crate::steps::{answer, pair};
use dapohiru::{Refusal, Report};
use dapohiru_compare::guarded::lend_longer;
use dapohiru_compare::library::CALLS;
use dapohiru_compare::wrapper::event;
use dapohiru_generators::events::Call;
use dapohiru_generators::random::Random;
use dapohiru_second::step::Answer;

#[test]
fn refusals_go_by_rising_number_across_wrong_lengths() {
    let good = pair();
    let bad_cell = {
        let mut table = good.table;
        table[16 * 2 + 2] = 3;
        table
    };
    let long = [0; 300];
    // rule bytes, S, A, finals, and whether it is a rule
    let rules: [(&[u8], u64, u64, u64, bool); 12] = [
        (&good.table, 3, 3, 4, true),
        (&good.table[..255], 3, 3, 4, false),
        (&good.table[..0], 3, 3, 4, false),
        (&long[..257], 3, 3, 4, false),
        (&bad_cell, 3, 3, 4, false),
        (&good.table, 0, 3, 0, false),
        (&good.table, 17, 3, 4, false),
        (&good.table, 3, 0, 4, false),
        (&good.table, 3, 17, 4, false),
        (&good.table, 3, 3, 8, false),
        (&good.table, 3, 3, 1 << 63, false),
        (&good.table, u64::MAX, u64::MAX, 4, false),
    ];
    for (rule, states, symbols, finals, is_rule) in rules {
        for symbol in [0, 2, 3, 17, 256, u64::MAX] {
            for length in 0..=40 {
                for state in [0, 2, 3, 255, 256, 1 << 32, u64::MAX] {
                    let mut record = [7; 40];
                    record[..8].copy_from_slice(&u64::to_le_bytes(state));
                    let before = record;
                    let wanted = if !is_rule {
                        Some(13)
                    } else if symbol >= 3 {
                        Some(14)
                    } else if length != 16 || state >= 3 {
                        Some(15)
                    } else {
                        None
                    };
                    let answer =
                        event(rule, states, symbols, finals, symbol, &mut record[..length]);
                    assert_eq!(answer.err(), wanted.map(Refusal));
                    assert!(wanted.is_none() || record == before);
                }
            }
        }
    }
}

#[test]
fn rule_and_record_of_the_right_lengths_in_any_low_bits_of_their_own_are_13_and_15() {
    let good = pair();
    let event = |table: &[u8], record: &mut [u8]| {
        let (states, symbols, finals) = (good.states, good.symbols, good.finals);
        (CALLS.event)(table, states, symbols, finals, 0, record)
    };
    lend_longer(&good.table, 8, |table| {
        let mut record = [0; 16];
        let number = event(table, &mut record);
        assert_eq!((number, record), (13, [0; 16]), "{} bytes", table.len());
    });
    lend_longer(&[0; 16], 4, |record| {
        assert_eq!(event(&good.table, record), 15, "{} bytes", record.len());
    });
}

#[test]
fn states_and_symbols_outside_1_to_16_are_refused_as_13() {
    let table = [0; 256];
    let others = [0, 17, 255, 256, 257, 1 << 16, (1 << 32) + 1, 1 << 63];
    for states in (0..=40).chain(others) {
        for symbols in (0..=40).chain(others) {
            let accepted = (1..=16).contains(&states) && (1..=16).contains(&symbols);
            let answer = event(&table, states, symbols, 0, 0, &mut [0; 16]);
            let wanted = if accepted {
                Ok(Report::Quiet)
            } else {
                Err(Refusal(13))
            };
            assert_eq!(answer, wanted, "S {states}, A {symbols}");
        }
    }
}

#[test]
fn final_state_of_states_or_more_is_refused_as_13_up_to_bit_63() {
    for states in 1..=16 {
        for bit in 0..64 {
            let answer = event(&[0; 256], states, 1, 1 << bit, 0, &mut [0; 16]);
            let wanted = match bit {
                0 => Ok(Report::Alarm),
                _ if bit < states => Ok(Report::Quiet),
                _ => Err(Refusal(13)),
            };
            assert_eq!(answer, wanted, "S {states}, bit {bit}");
        }
    }
}

#[test]
fn next_state_of_states_or_more_is_refused_as_13_at_every_place_within() {
    for (states, symbols) in [(1, 1), (3, 3), (2, 16), (16, 2), (15, 7), (16, 16)] {
        for place in 0..256 {
            for next in [states - 1, states, 16, 255] {
                let mut table = [0; 256];
                table[place as usize] = next as u8;
                let within = place / 16 < states && place % 16 < symbols;
                let answer = event(&table, states, symbols, 0, 0, &mut [0; 16]);
                let wanted = if within && next >= states {
                    Err(Refusal(13))
                } else {
                    Ok(Report::Quiet)
                };
                assert_eq!(answer, wanted, "S {states}, A {symbols}, place {place}");
            }
        }
    }
}

#[test]
fn cells_past_states_or_symbols_change_nothing() {
    let mut random = Random::of_this_run();
    for _ in 0..200_000 {
        let mut call = Call::with_good_rule(&mut random);
        call.put_any_event(&mut random);
        let mut table: [u8; 256] = call.rule().try_into().unwrap();
        for place in 0..256 {
            if place / 16 >= call.states || place % 16 >= call.symbols {
                table[place as usize] = random.below(256) as u8;
            }
        }
        let mut record = call.record().to_vec();
        let other = event(
            &table,
            call.states,
            call.symbols,
            call.finals,
            call.symbol,
            &mut record,
        );
        let other = match other {
            Ok(Report::Quiet) => Answer::Quiet,
            Ok(Report::Alarm) => Answer::Alarm,
            Err(Refusal(number)) => Answer::Refused(number),
        };
        assert_eq!(answer(&mut call), other);
        assert_eq!(call.record(), record);
    }
}
