//! The events that are taken: the state moved to, the alarm and its total, the record's bytes.
use crate::steps::{answer, pair};
use dapohiru::{Record, Refusal, Report, Rule};
use dapohiru_generators::events::Call;
use dapohiru_generators::random::Random;
use dapohiru_second::step::Answer;

#[test]
fn accepted_event_moves_to_the_next_state_and_counts_its_alarm() {
    let mut random = Random::of_this_run();
    let mut taken = 0;
    for _ in 0..500_000 {
        let mut call = Call::any(&mut random);
        let before = call.record().to_vec();
        let report = match answer(&mut call) {
            Answer::Refused(_) => continue,
            report => report,
        };
        let number = |bytes: &[u8]| u64::from_le_bytes(bytes.try_into().unwrap());
        let next = call.rule()[16 * before[0] as usize + call.symbol as usize];
        let alarm = call.finals >> next & 1 == 1;
        let total = number(&before[8..]).saturating_add(alarm.into());
        assert_eq!(report == Answer::Alarm, alarm);
        assert_eq!(number(&call.record()[..8]), u64::from(next));
        assert_eq!(number(&call.record()[8..]), total);
        taken += 1;
    }
    println!("{taken} accepted calls");
    assert!(taken > 150_000);
}

#[test]
fn alarm_total_rises_by_one_and_stays_at_its_highest() {
    let rule = pair();
    let mut record = Record {
        state: 1,
        alarms: u64::MAX - 2,
    };
    let mut totals = Vec::new();
    for _ in 0..5 {
        assert_eq!(rule.event(2, &mut record), Ok(Report::Alarm));
        totals.push(record.alarms);
    }
    assert_eq!(
        totals,
        [u64::MAX - 1, u64::MAX, u64::MAX, u64::MAX, u64::MAX]
    );
    assert_eq!(rule.event(0, &mut record), Ok(Report::Quiet));
    assert_eq!(
        record,
        Record {
            state: 1,
            alarms: u64::MAX
        }
    );
}

#[test]
fn alarm_is_given_also_when_the_state_was_final_before() {
    let rule = pair();
    let mut record = Record::default();
    let reports: Vec<_> = [2, 0, 2, 2, 2, 1, 2]
        .into_iter()
        .map(|symbol| rule.event(symbol, &mut record).unwrap() == Report::Alarm)
        .collect();
    assert_eq!(reports, [false, false, true, true, true, false, false]);
    assert_eq!(
        record,
        Record {
            state: 0,
            alarms: 3
        }
    );
}

#[test]
fn typed_form_gives_the_answers_of_the_byte_form() {
    let mut random = Random::of_this_run();
    let mut compared = 0;
    for _ in 0..300_000 {
        let mut call = Call::any(&mut random);
        let (Ok(table), Ok(bytes)) = (call.rule().try_into(), call.record().try_into()) else {
            continue;
        };
        let rule = Rule {
            table,
            states: call.states,
            symbols: call.symbols,
            finals: call.finals,
        };
        let mut record = Record::from_bytes(bytes);
        let typed = match rule.event(call.symbol, &mut record) {
            Ok(Report::Quiet) => Answer::Quiet,
            Ok(Report::Alarm) => Answer::Alarm,
            Err(Refusal(number)) => Answer::Refused(number),
        };
        assert_eq!(typed, answer(&mut call));
        assert_eq!(record.to_bytes(), call.record());
        compared += 1;
    }
    println!("{compared} calls");
    assert!(compared > 150_000);
}

#[test]
fn record_bytes_are_state_then_total_lowest_byte_first() {
    let record = Record {
        state: 0x0102,
        alarms: 0x0a0b_0c0d_0e0f_1011,
    };
    let bytes = [
        2, 1, 0, 0, 0, 0, 0, 0, 0x11, 0x10, 0x0f, 0x0e, 0x0d, 0x0c, 0x0b, 0x0a,
    ];
    assert_eq!(record.to_bytes(), bytes);
    assert_eq!(Record::from_bytes(bytes), record);
}
