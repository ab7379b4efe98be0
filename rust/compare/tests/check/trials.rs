//! The trials of document 01 that concern plans, with the answers by hand.
use dapohiru_compare::checking::{Memory, Said};
use dapohiru_compare::wrapper::WRAPPER;
use dapohiru_generators::samples::{
    call, event, exit, in_loop, one_seal, pair, turn, two_writes, LOCK, PAIR, PLAIN_NODE, REOPEN,
    SEAL, WRITE,
};
use dapohiru_second::job::Job;
use dapohiru_second::listing::listing;
use dapohiru_second::planning::plan;
use dapohiru_second::reading::WORK;
use dapohiru_second::walk::Walks;

/// Asks that the library and the walks find each of these plans, written in digits, to be as said.
fn are(wanted: Said, job: &Job, plans: &str) {
    let mut memory = Memory::new(WRAPPER);
    let walks = Walks::new(job, None);
    for digits in plans.split(' ') {
        let plan: Vec<_> = digits.bytes().map(|digit| digit - b'0').collect();
        let seen = memory.call(&job.file(), &plan, WORK).unwrap();
        assert_eq!(seen.said, wanted, "{digits}");
        let faithful = dapohiru_second::search::difference(&walks, &plan).is_none();
        assert_eq!(faithful, wanted == Said::Faithful, "{digits} by walks");
    }
}

/// Asks that these plans are faithful.
fn faithful(job: &Job, plans: &str) {
    are(Said::Faithful, job, plans);
}

/// Asks that these plans are different.
fn different(job: &Job, plans: &str) {
    are(Said::Different, job, plans);
}

#[test]
fn of_two_seals_either_may_go_and_not_both() {
    faithful(&pair(), "111 011 101");
    different(&pair(), "001 110 010 100 000");
}

#[test]
fn in_a_loop_a_point_with_nop_mark_1_may_not_go_alone() {
    faithful(&in_loop(), "11 10 00");
    different(&in_loop(), "01");
}

#[test]
fn turned_twice_or_not_at_all_is_faithful_and_once_is_not() {
    faithful(&turn(), "111 001");
    different(&turn(), "011 101 110 000");
}

#[test]
fn seal_before_a_word_of_writes_is_needed_and_before_none_is_not() {
    faithful(&one_seal(4), "1");
    different(&one_seal(4), "0");
    faithful(&one_seal(0), "1 0");
    // reopen alone may follow
    faithful(&one_seal(2), "1 0");
}

#[test]
fn alarm_from_final_to_final_keeps_the_second_write() {
    faithful(&two_writes(), "111");
    different(&two_writes(), "110 101 100 011 000");
}

#[test]
fn reopen_that_prevents_an_alarm_is_needed() {
    let nodes = vec![event(SEAL), event(REOPEN), event(WRITE)];
    let job = PAIR.job(1, nodes, &[(0, 1), (1, 2)]);
    faithful(&job, "111 011 001 000");
    different(&job, "101");
}

#[test]
fn call_word_of_two_events_may_show_the_difference() {
    let job = |set: u64| LOCK.job(1, vec![event(0), call(set)], &[(0, 1)]);
    faithful(&job(6), "10");
    different(&job(6), "00");
    for set in [0, 1, 2, 4, 5] {
        faithful(&job(set), "10 00");
    }
    // with symbol 0 too the planned monitor can catch up, and need not
    different(&job(7), "00");
}

#[test]
fn call_word_comes_before_the_word_after_an_exit() {
    let job = |set: u64, after: u64| LOCK.job(1, vec![event(0), exit(call(set), after)], &[(0, 1)]);
    faithful(&job(2, 4), "10");
    different(&job(2, 4), "00");
    faithful(&job(4, 2), "00");
    different(&job(0, 6), "00");
}

#[test]
fn exit_with_an_edge_may_end_and_may_go_on() {
    let job = |after: u64, then: u64| {
        let nodes = vec![event(0), exit(event(1), after), event(then)];
        LOCK.job(1, nodes, &[(0, 1), (1, 2)])
    };
    // the word after the exit shows it, or the node that follows
    for shown in [job(4, 1), job(0, 2)] {
        faithful(&shown, "111");
        different(&shown, "101");
    }
    faithful(&job(2, 1), "111 101");
}

#[test]
fn no_edge_is_taken_once_the_word_after_an_exit_has_begun() {
    let nodes = |after: u64| vec![event(0), exit(PLAIN_NODE, after), event(2)];
    let job = |after: u64| LOCK.job(1, nodes(after), &[(0, 1), (1, 2)]);
    // symbol 1 in the word and then the event of node 2 would alarm
    faithful(&job(2), "001 000");
    different(&job(6), "001");
    faithful(&job(6), "100");
}

#[test]
fn entry_reached_again_has_the_states_carried_along() {
    let job = |edges: &[(u64, u64)]| LOCK.job(1, vec![event(1), event(0), event(2)], edges);
    let again = job(&[(0, 1), (0, 2), (1, 0)]);
    faithful(&again, "111");
    different(&again, "011");
    let once = job(&[(0, 1), (0, 2)]);
    faithful(&once, "111 011");
}

#[test]
fn every_admitted_state_of_every_entry_counts() {
    let mut job = LOCK.job(1, vec![PLAIN_NODE, event(1), event(2)], &[(0, 1), (1, 2)]);
    faithful(&job, "000");
    for (entry, wanted) in [
        (1, Said::Faithful),
        (2, Said::Different),
        (3, Said::Different),
        (8, Said::Faithful),
        (9, Said::Faithful),
        (15, Said::Different),
    ] {
        job.nodes[1].entry = entry;
        faithful(&job, "011");
        are(wanted, &job, "001 010");
    }
}

#[test]
fn every_plan_is_faithful_where_no_walk_comes() {
    let mut job = two_writes();
    job.edges.clear();
    faithful(&job, "100 000 011");
    job.nodes[2].entry = 1;
    faithful(&job, "000");
    job.nodes[2].entry = 6;
    different(&job, "000");
    faithful(&job, "001");
}

#[test]
fn second_implementation_prints_the_listings_of_document_01() {
    let pair_lines = "\
W     0     0     1     1     1     0
W     1     0     2     2     1     1
W     2     2     2     1     0     1
T     3     2     2
";
    let loop_lines = "\
W     0     0     5     2     1     0
W     1     1     6     2     1     0
T     2     0     3
";
    for (job, wanted) in [(pair(), pair_lines), (in_loop(), loop_lines)] {
        assert_eq!(String::from_utf8(listing(&job)).unwrap(), wanted);
    }
}

#[test]
fn second_implementation_finds_the_plans_of_document_01() {
    for (job, wanted, passes) in [
        (turn(), vec![1, 1, 1], 1),
        (one_seal(4), vec![1], 1),
        (one_seal(0), vec![0], 2),
        (two_writes(), vec![1, 1, 1], 1),
    ] {
        let planned = plan(&Walks::new(&job, None));
        assert_eq!((planned.plan, planned.passes), (wanted, passes));
    }
}
