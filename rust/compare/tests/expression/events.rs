//! The rule that an expression makes, in the event step: it is never refused, an event alarms exactly when the events so
//! far are a word, and two lists of events lead to one state exactly when their last events can stand for the same
//! letters.
use dapohiru::{Record, Refusal, Report, Rule};
use dapohiru_compare::wrapper;
use dapohiru_generators::expressions;
use dapohiru_generators::random::Random;
use dapohiru_second::expression::{alarms, places};
use std::collections::BTreeMap;

/// The rule of a random expression, with the expression.
fn any_rule(random: &mut Random) -> (Vec<u8>, Rule) {
    loop {
        let symbols = expressions::symbols(random);
        let text = match random.once_in(6) {
            true => expressions::many_states(random, symbols),
            false => expressions::sound(random, symbols),
        };
        match wrapper::expression(&text, symbols) {
            Ok(rule) => {
                assert_eq!(rule.symbols, symbols);
                return (text, rule);
            }
            Err(refusal) => assert_eq!(refusal, Refusal(21), "{}", text.escape_ascii()),
        }
    }
}

#[test]
fn event_alarms_exactly_where_the_events_so_far_are_a_word() {
    let mut random = Random::of_this_run();
    let (mut raised, mut quiet) = (0, 0);
    for number in 0..3_000 {
        let (text, rule) = any_rule(&mut random);
        for _ in 0..4 {
            let events = expressions::events(&mut random, rule.symbols, &text, 24);
            let wanted = alarms(&text, &events).expect("the text is sound");
            let mut record = Record::default();
            for (place, (&event, &is_word)) in events.iter().zip(&wanted).enumerate() {
                let report = rule.event(event, &mut record).expect("it is taken");
                let name = format!(
                    "sample {number}: {} {events:?} {place}",
                    text.escape_ascii()
                );
                assert_eq!(report == Report::Alarm, is_word, "{name}");
                raised += u64::from(is_word);
                quiet += u64::from(!is_word);
            }
            assert_eq!(
                record.alarms,
                wanted.iter().filter(|&&word| word).count() as u64
            );
        }
    }
    println!("{raised} alarms, {quiet} quiet events");
    assert!(raised > 10_000 && quiet > 10_000);
}

#[test]
fn two_lists_of_events_lead_to_one_state_exactly_where_they_stand_for_the_same_letters() {
    let mut random = Random::of_this_run();
    let (mut states, mut empty) = (0, 0);
    for number in 0..600 {
        let (text, rule) = any_rule(&mut random);
        let name = format!("sample {number}: {}", text.escape_ascii());
        let mut set_of = BTreeMap::new();
        let mut state_of = BTreeMap::new();
        for _ in 0..24 {
            let len = 1 + random.place(12);
            let events = expressions::events(&mut random, rule.symbols, &text, len);
            let mut record = Record::default();
            for &event in &events {
                rule.event(event, &mut record).expect("it is taken");
            }
            // no event leads back to the start
            assert!((1..rule.states).contains(&record.state), "{name}");
            let set = places(&text, &events).expect("the text is sound");
            empty += u64::from(set.is_empty());
            let known = set_of.entry(record.state).or_insert_with(|| set.clone());
            assert_eq!(*known, set, "{name}, {events:?}");
            let known = *state_of.entry(set).or_insert(record.state);
            assert_eq!(known, record.state, "{name}, {events:?}");
        }
        states += set_of.len();
    }
    println!("{states} states, {empty} empty sets");
    assert!(states > 1_200 && empty > 100);
}

#[test]
fn rule_of_an_expression_is_taken_in_every_state_and_refused_past_its_symbols() {
    let mut random = Random::of_this_run();
    for _ in 0..300 {
        let (_, rule) = any_rule(&mut random);
        for state in 0..rule.states {
            for symbol in 0..=rule.symbols {
                let mut record = Record { state, alarms: 7 };
                let report = rule.event(symbol, &mut record);
                match symbol == rule.symbols {
                    true => assert_eq!(report, Err(Refusal(14))),
                    false => {
                        let next = rule.table[(16 * state + symbol) as usize];
                        let is_alarm = rule.finals >> next & 1 == 1;
                        assert_eq!(report == Ok(Report::Alarm), is_alarm);
                        assert_eq!(record.state, u64::from(next));
                        assert!(next > 0);
                    }
                }
            }
        }
    }
}
