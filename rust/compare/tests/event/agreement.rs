//! Random calls: the library beside the second implementation, without a slip and with each.
use crate::steps::{answer, compare};
use dapohiru_generators::events::Call;
use dapohiru_generators::random::Random;
use dapohiru_second::step::{Answer, Second, Slip};

#[test]
fn random_calls_agree_with_the_second_implementation() {
    const CALLS: u64 = 4_000_000;
    let mut random = Random::of_this_run();
    let (mut quiet, mut alarm, mut refused, mut full) = (0, 0, [0; 3], 0);
    for number in 0..CALLS {
        let call = Call::any(&mut random);
        match compare(Second { slip: None }, &call) {
            Ok(Answer::Quiet) => quiet += 1,
            Ok(Answer::Alarm) => {
                alarm += 1;
                full += u64::from(call.record()[8..] == [255; 8]);
            }
            Ok(Answer::Refused(number)) => refused[number as usize - 13] += 1,
            Err(why) => panic!("call {number}: {why}"),
        }
    }
    let [rule, symbol, record] = refused;
    println!("{CALLS} calls: quiet {quiet}, alarm {alarm} ({full} at total 2^64-1), refused 13 {rule}, 14 {symbol}, 15 {record}");
    for (count, share) in [
        (quiet, 10),
        (alarm, 10),
        (rule, 10),
        (symbol, 3),
        (record, 3),
        (full, 1),
    ] {
        assert!(
            count * 100 >= CALLS * share,
            "an answer is too rare: {count}"
        );
    }
}

#[test]
fn every_slip_of_the_second_implementation_is_noticed() {
    const LIMIT: u64 = 2_000_000;
    let mut random = Random::of_this_run();
    for &slip in Slip::ALL {
        let mut differs = || {
            let call = Call::any(&mut random);
            let noticed = compare(Second { slip: Some(slip) }, &call).is_err();
            assert!(!noticed || compare(Second { slip: None }, &call).is_ok());
            noticed
        };
        match (1..=LIMIT).find(|_| differs()) {
            Some(number) => println!("{slip:?}: noticed at call {number}"),
            None => panic!("{slip:?}: not noticed in {LIMIT} calls"),
        }
    }
}

#[test]
fn refusal_leaves_every_byte_of_the_record() {
    let mut random = Random::of_this_run();
    let mut refusals = 0;
    for _ in 0..1_000_000 {
        let before = Call::any(&mut random);
        let mut after = before.clone();
        if let Answer::Refused(_) = answer(&mut after) {
            assert_eq!(after.around, before.around);
            refusals += 1;
        }
    }
    println!("{refusals} refused calls");
    assert!(refusals > 300_000);
}

#[test]
fn rule_is_never_written() {
    let mut random = Random::of_this_run();
    for _ in 0..200_000 {
        let before = Call::any(&mut random);
        let mut after = before.clone();
        answer(&mut after);
        assert_eq!(after.rule(), before.rule());
    }
}

#[test]
fn refused_calls_between_events_change_no_answer_and_no_record() {
    let mut random = Random::of_this_run();
    let (mut events, mut refusals) = (0, 0);
    for _ in 0..20_000 {
        let mut alone = Call::with_good_rule(&mut random);
        alone.put_any_event(&mut random);
        if let Answer::Refused(_) = answer(&mut alone.clone()) {
            continue;
        }
        let mut among = alone.clone();
        for _ in 0..random.below(40) {
            // any call on the record as it stands, or on a part of it, if it is one that is refused
            for _ in 0..random.below(4) {
                let mut between = Call::any(&mut random);
                between.around = among.around;
                if let Answer::Refused(_) = answer(&mut between.clone()) {
                    answer(&mut between);
                    among.around = between.around;
                    refusals += 1;
                }
            }
            alone.symbol = random.below(alone.symbols);
            among.symbol = alone.symbol;
            let report = answer(&mut alone);
            assert!(!matches!(report, Answer::Refused(_)));
            assert_eq!(answer(&mut among), report);
            assert_eq!(among.around, alone.around);
            events += 1;
        }
    }
    println!("{events} events, {refusals} refused calls between them");
    assert!(events > 100_000 && refusals > 100_000);
}
