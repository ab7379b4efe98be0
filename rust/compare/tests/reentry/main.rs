//! Small jobs with calls that may come back in (document 02, request 2), with their listings worked out by hand.
mod jobs;

use dapohiru::{Counts, Refusal, Verdict};
use dapohiru_compare::wrapper::{check, list, plan};
use dapohiru_second::job::{Job, CALL, REENTRANT};
use dapohiru_second::listing::listing;
use dapohiru_second::reading::WORK;
use dapohiru_second::search::difference;
use dapohiru_second::slip::Slip;
use dapohiru_second::walk::Walks;
use jobs::{
    comes_in, entry_call, exit_call, late_word, neither, no_edge, no_exit, nop_lost, own_word,
    returns, two_calls, with_kind_2,
};

/// Asks for this listing, of the library and of the walks, and for its plan and counts.
#[track_caller]
fn listed(job: &Job, wanted: &str) {
    let wanted: String = wanted
        .lines()
        .map(|line| line.trim().to_string() + "\n")
        .collect();
    let (mut bytes, mut plan_bytes) = (vec![b'?'; 32_768], [7; 512]);
    assert_eq!(String::from_utf8(listing(job)).unwrap(), wanted, "by walks");
    let len = list(&job.file(), &mut [9; WORK], &mut bytes).expect("the job is listed");
    assert_eq!(str::from_utf8(&bytes[..len]), Ok(wanted.as_str()));
    let numbers = |line: &str| -> Vec<u64> {
        let numbers = line[1..].split_whitespace();
        numbers.map(|number| number.parse().unwrap()).collect()
    };
    let (points, totals) = wanted.trim_end().rsplit_once('\n').expect("a point");
    let points = points.lines().map(numbers);
    let watched = points
        .filter(|line| line[5] == 1)
        .map(|line| line[0] as usize);
    let wanted = job.plan_of(&watched.collect::<Vec<_>>());
    let [points, watched, passes] = numbers(totals)[..] else {
        panic!("{totals} is no T line");
    };
    let counts = plan(&job.file(), &mut [9; WORK], &mut plan_bytes);
    let wanted_counts = Counts {
        points,
        watched,
        passes,
    };
    assert_eq!(counts, Ok(wanted_counts));
    assert!(plan_bytes.starts_with(&wanted), "{plan_bytes:?}");
}

/// Asks that of all plans of a job just these, written in digits, are faithful, to the library and to the walks.
#[track_caller]
fn faithful_alone(job: &Job, wanted: &str) {
    let points = job.points();
    let walks = Walks::new(job, None);
    for set in 0..1u32 << points.len() {
        let watched = (0..points.len()).filter(|&place| set >> place & 1 == 1);
        let plan = job.plan_of(&watched.map(|place| points[place]).collect::<Vec<_>>());
        let digits: String = plan.iter().map(|byte| char::from(b'0' + byte)).collect();
        let verdict = match wanted.split(' ').any(|faithful| faithful == digits) {
            true => Verdict::Faithful,
            false => Verdict::Different,
        };
        assert_eq!(
            check(&job.file(), &plan, &mut [9; WORK]),
            Ok(verdict),
            "{digits}"
        );
        let by_walks = difference(&walks, &plan).is_none();
        assert_eq!(by_walks, verdict == Verdict::Faithful, "{digits} by walks");
    }
}

#[test]
fn seal_stays_watched_only_because_the_procedure_comes_in_again() {
    // Write in 0 is quiet, seal leads to 1, and after the call's empty word the walk goes to the write in 1, which
    // the entry set lacks: an alarm. So the write is met in 0 and 1, the seal in 0 and 2. The seal leads every
    // state to 1: one class after the write. After the seal the next write tells 0 from 1 and 2.
    listed(
        &comes_in(),
        "W     0     1     3     1     0     1
         W     1     0     5     2     0     1
         T     2     2     1",
    );
    faithful_alone(&comes_in(), "110");
    // else the walk ends with the seal
    listed(
        &with_kind_2(comes_in()),
        "W     0     1     1     1     1     0
         W     1     0     1     1     1     0
         T     2     0     2",
    );
    faithful_alone(&with_kind_2(comes_in()), "000 100 010 110");
}

#[test]
fn point_behind_the_call_is_met_in_the_state_that_an_exit_left() {
    // 0, 3, back to 1, 2 is a walk, though nobody has called: the write is met in 0 without a return and in 1 after
    // it, where it alarms. The seal is met in 0 and, after a return and coming in again, in 1.
    listed(
        &returns(),
        "W     2     1     3     1     0     1
         W     3     0     3     2     0     1
         T     2     2     1",
    );
    faithful_alone(&returns(), "0011");
    listed(
        &with_kind_2(returns()),
        "W     2     1     1     1     1     0
         W     3     0     1     1     1     0
         T     2     0     2",
    );
}

#[test]
fn return_takes_a_nop_mark_and_the_point_goes_nevertheless() {
    // The reopen is met in 1 and leads to 0. After it a walk may return and write, which tells 0 from 1 and 2: the
    // mark is 0. The seal goes, since the reopen leads to 0 whatever it did; then the reopen stays in 0 and goes
    // too; the write is met in 0 alone and is quiet.
    listed(
        &nop_lost(),
        "W     0     0     1     1     1     0
         W     1     1     2     2     0     0
         W     3     2     1     1     1     0
         T     3     0     2",
    );
    listed(
        &with_kind_2(nop_lost()),
        "W     0     0     1     1     1     0
         W     1     1     2     1     1     0
         W     3     2     0     1     1     0
         T     3     0     2",
    );
}

#[test]
fn call_that_is_an_entry_has_its_word_at_the_start_and_again_after_a_return() {
    // At the start the writes come in 0, quiet. After the seal the walk returns to the call, and a write of its word
    // alarms. The seal is met in 0, in 1 after an empty word and in 2 after writes.
    listed(
        &entry_call(),
        "W     1     0     7     2     0     1
         T     1     1     1",
    );
    faithful_alone(&entry_call(), "01");
    listed(
        &with_kind_2(entry_call()),
        "W     1     0     1     1     1     0
         T     1     0     2",
    );
}

#[test]
fn call_that_is_an_exit_returns_to_itself_and_comes_in_again() {
    // Past the call a seal of the after word leads to 1, the walk returns to the call, and after its empty word comes
    // in again: the write alarms. The write is met in 0, 1 and 2.
    listed(
        &exit_call(),
        "W     0     1     7     2     0     1
         T     1     1     1",
    );
    faithful_alone(&exit_call(), "10");
    listed(
        &with_kind_2(exit_call()),
        "W     0     1     1     1     1     0
         T     1     0     2",
    );
}

#[test]
fn call_without_an_edge_to_it_is_reached_by_a_return() {
    // After the seal and the empty after word the walk goes to the call, and a write of its word alarms; then it may
    // come in at the seal in 1 or 2.
    listed(
        &no_edge(),
        "W     0     0     7     2     0     1
         T     1     1     1",
    );
    faithful_alone(&no_edge(), "10");
    listed(
        &with_kind_2(no_edge()),
        "W     0     0     1     1     1     0
         T     1     0     2",
    );
}

#[test]
fn call_is_not_reached_where_no_exit_is() {
    // A walk is one seal. The write is met by none, and its classes are those of a walk that returns from it.
    listed(
        &no_exit(),
        "W     0     0     1     1     1     0
         W     2     1     0     2     1     0
         T     2     0     2",
    );
    faithful_alone(&no_exit(), "000 100 001 101");
    listed(
        &with_kind_2(no_exit()),
        "W     0     0     1     1     1     0
         W     2     1     0     1     1     0
         T     2     0     2",
    );
    // with the seal an exit the call is reached, and with it the write
    let mut job = no_exit();
    job.nodes[0].exit = 1;
    listed(
        &job,
        "W     0     0     7     2     0     1
         W     2     1     6     2     0     1
         T     2     2     1",
    );
}

#[test]
fn walk_comes_in_again_in_a_state_that_no_entry_admits() {
    // The first event leads to 2, quiet; the walk comes in again in 2 at either entry, and the next event alarms.
    listed(
        &neither(),
        "W     0     0    13     2     0     1
         W     1     0    14     2     0     1
         T     2     2     1",
    );
    faithful_alone(&neither(), "110");
    listed(
        &with_kind_2(neither()),
        "W     0     0     1     1     1     0
         W     1     0     2     1     1     0
         T     2     0     2",
    );
}

#[test]
fn word_after_an_exit_alarms_only_once_the_walk_has_returned() {
    // At the first end the writes come in 0, quiet. The walk returns, seals and comes to the exit again: now a write
    // of the after word alarms. The seal is met in 0, 1 and 2.
    listed(
        &late_word(),
        "W     2     0     7     2     0     1
         T     1     1     1",
    );
    faithful_alone(&late_word(), "001");
    listed(
        &with_kind_2(late_word()),
        "W     2     0     0     2     1     0
         T     1     0     2",
    );
}

#[test]
fn word_of_the_call_comes_before_the_walk_comes_in_again() {
    // A seal of the call's word leads to 1, and the write alarms when the walk comes in again.
    listed(
        &own_word(),
        "W     0     1     7     2     0     1
         T     1     1     1",
    );
    faithful_alone(&own_word(), "10");
    listed(
        &with_kind_2(own_word()),
        "W     0     1     1     1     1     0
         T     1     0     2",
    );
}

#[test]
fn walk_returns_to_any_call_of_kind_3_and_to_none_of_kind_2() {
    listed(
        &two_calls(REENTRANT),
        "W     0     0     7     2     0     1
         T     1     1     1",
    );
    // it returns to node 1 alone, and comes in again in 1
    listed(
        &two_calls(CALL),
        "W     0     0     3     1     1     0
         T     1     0     2",
    );
}

#[test]
fn plan_byte_1_at_a_call_that_may_come_back_in_is_12() {
    for (plan, wanted) in [
        ([1, 1, 0], Ok(Verdict::Faithful)),
        ([1, 1, 1], Err(Refusal(12))),
        ([0, 0, 1], Err(Refusal(12))),
        ([1, 1, 2], Err(Refusal(12))),
    ] {
        let answer = check(&comes_in().file(), &plan, &mut [9; WORK]);
        assert_eq!(answer, wanted, "{plan:?}");
    }
}

#[test]
fn each_slip_of_coming_in_and_returning_shows_in_one_of_these_jobs() {
    let jobs = [
        ("comes_in", comes_in()),
        ("returns", returns()),
        ("nop_lost", nop_lost()),
        ("entry_call", entry_call()),
        ("exit_call", exit_call()),
        ("no_edge", no_edge()),
        ("no_exit", no_exit()),
        ("neither", neither()),
        ("late_word", late_word()),
        ("own_word", own_word()),
        ("two_calls", two_calls(REENTRANT)),
        ("two_calls of two kinds", two_calls(CALL)),
    ];
    for slip in [
        Slip::ReentrantAsCall,
        Slip::NeverComesIn,
        Slip::ComesInWhereAdmitted,
        Slip::ComesInAtFirstEntry,
        Slip::ComesInAtItself,
        Slip::ComesInBeforeWord,
        Slip::ComesInPastEntry,
        Slip::NeverReturns,
        Slip::ReturnsToCallerOnly,
        Slip::ReturnsToFirstCall,
        Slip::ReturnsToEveryCall,
        Slip::ReturnsPastWord,
        Slip::EmptyAfterWordStays,
        Slip::AfterWordStays,
        Slip::ReturnsFromEveryNode,
    ] {
        let shows = |(_, job): &&(&str, Job)| {
            let walks = Walks::new(job, Some(slip));
            let planned = dapohiru_second::planning::plan(&walks);
            dapohiru_second::listing::lines(&walks, &planned) != listing(job)
        };
        let showing: Vec<_> = jobs.iter().filter(shows).map(|(name, _)| *name).collect();
        println!("{slip:?}: {}", showing.join(", "));
        assert!(!showing.is_empty(), "{slip:?}");
    }
}
