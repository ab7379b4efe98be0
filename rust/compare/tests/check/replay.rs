//! Walks replayed through the event step on two records, full and planned.
use dapohiru::{Rule, Verdict};
use dapohiru_compare::promise::rule_of;
use dapohiru_compare::records::{Records, Tally};
use dapohiru_compare::wrapper::{check, WRAPPER};
use dapohiru_generators::random::Random;
use dapohiru_generators::small;
use dapohiru_generators::walker::Walker;
use dapohiru_generators::zeros::filled;
use dapohiru_second::reading::WORK;
use dapohiru_second::search::{difference, Difference};
use dapohiru_second::walk::{Place, Walks};

/// Hands over each plan of random small jobs that the library finds to be so, with the walks of its job and the rule
/// that the library takes from its file.
fn each_plan(found: Verdict, mut take: impl FnMut(&mut Random, &Walks, &Rule, &[u8])) {
    let mut random = Random::of_this_run();
    let mut work = vec![0; WORK];
    for _ in 0..1_500 {
        let job = small::job(&mut random);
        let walks = Walks::new(&job, None);
        let file = filled(&mut random, job.file());
        let rule = rule_of(WRAPPER, &mut random, &job).unwrap();
        for plan in small::plans(&mut random, &job) {
            if check(&file, &plan, &mut work) == Ok(found) {
                take(&mut random, &walks, &rule, &plan);
            }
        }
    }
}

#[test]
fn different_plan_has_a_walk_on_which_two_records_differ_at_the_last_event() {
    let (mut replayed, mut longest) = (0, 0);
    each_plan(Verdict::Different, |random, walks, rule, plan| {
        let Some(Difference {
            start,
            states,
            events,
            ..
        }) = difference(walks, plan)
        else {
            panic!("no walk differs under {plan:?}");
        };
        let Place::Before(entry) = start else {
            panic!("a walk begins at {start:?}");
        };
        assert!(walks.job.nodes[entry].entry >> states.0 & 1 == 1);
        assert_eq!(states.0, states.1);
        let alarms = random.number() >> random.place(64);
        let mut records = Records::new(WRAPPER, walks.job, rule, plan, states.0, alarms);
        let mut left = events.iter().copied();
        let place = records.first_difference(random, |_| left.next()).unwrap();
        let last = events.len() as u64 - 1;
        assert_eq!(place, Some(last), "{events:?} under {plan:?}");
        replayed += 1;
        longest = longest.max(events.len());
    });
    println!("{replayed} walks replayed, the longest of {longest} events");
    assert!(replayed > 2_000 && longest >= 6);
}

#[test]
fn faithful_plan_gives_equal_reports_and_totals_on_random_walks() {
    let (mut replayed, mut tally) = (0, Tally::default());
    each_plan(Verdict::Faithful, |random, walks, rule, plan| {
        for _ in 0..3 {
            let mut walker = Walker::begin(random, walks);
            let alarms = u64::MAX - random.below(8);
            let mut records = Records::new(WRAPPER, walks.job, rule, plan, walker.start, alarms);
            let mut left = random.below(60);
            let place = records
                .first_difference(random, |random| {
                    left = left.checked_sub(1)?;
                    walker.next_event(random)
                })
                .unwrap();
            assert_eq!(place, None, "from {} under {plan:?}", walker.start);
            replayed += 1;
            tally.add(records.tally);
        }
    });
    println!("{replayed} walks replayed, {tally:?}");
    assert!(replayed > 5_000 && tally.events > 50_000 && tally.alarms > 1_000);
    assert!(tally.skipped > 1_000 && tally.refused.iter().sum::<u64>() > 1_000);
}
