//! The trials of document 01 that concern planning and listing, with the answers by hand.
use dapohiru::{Counts, Refusal};
use dapohiru_compare::serving::Memory;
use dapohiru_compare::wrapper::{list, plan, WRAPPER};
use dapohiru_generators::random::Random;
use dapohiru_generators::samples::{
    event, in_loop, one_seal, pair, turn, two_writes, PAIR, PLAIN_NODE, REOPEN, SEAL, WRITE,
};
use dapohiru_generators::sized::{self, Sizes, FULL};
use dapohiru_generators::zeros::filled;
use dapohiru_second::job::Job;
use dapohiru_second::listing::listing;
use dapohiru_second::reading::WORK;
use dapohiru_second::serving::Service;

/// Asks for this plan and these counts: event nodes, watched points, passes.
fn planned(job: &Job, wanted: &[u8], counts: [u64; 3]) {
    let mut bytes = [7; 512];
    let [points, watched, passes] = counts;
    let counts = Counts {
        points,
        watched,
        passes,
    };
    assert_eq!(plan(&job.file(), &mut [9; WORK], &mut bytes), Ok(counts));
    assert_eq!(&bytes[..wanted.len()], wanted);
    assert!(bytes[wanted.len()..].iter().all(|&byte| byte == 7));
}

/// Asks for this listing.
fn listed(job: &Job, wanted: &str) {
    let mut bytes = vec![b'?'; 32_768];
    let len = list(&job.file(), &mut [9; WORK], &mut bytes).expect("the job is listed");
    assert_eq!(std::str::from_utf8(&bytes[..len]), Ok(wanted));
    assert!(bytes[len..].iter().all(|&byte| byte == b'?'));
    assert_eq!(listing(job), wanted.as_bytes(), "by walks");
}

/// The refusal of a file by both calls.
fn refused(file: &[u8], number: u64) {
    let mut memory = Memory::new(WRAPPER);
    for service in Service::BOTH {
        let seen = memory.call(service, file, WORK, service.least()).unwrap();
        assert_eq!((seen.number, seen.written), (number, vec![]), "{service:?}");
    }
}

#[test]
fn pair_is_listed_as_document_01_prints_it() {
    let lines = "\
W     0     0     1     1     1     0
W     1     0     2     2     1     1
W     2     2     2     1     0     1
T     3     2     2
";
    listed(&pair(), lines);
    planned(&pair(), &[0, 1, 1], [3, 2, 2]);
}

#[test]
fn in_a_loop_the_second_pass_removes_what_the_first_could_not() {
    let lines = "\
W     0     0     5     2     1     0
W     1     1     6     2     1     0
T     2     0     3
";
    listed(&in_loop(), lines);
    planned(&in_loop(), &[0, 0], [2, 0, 3]);
}

#[test]
fn turned_twice_keeps_every_point_though_two_may_go_together() {
    planned(&turn(), &[1, 1, 1], [3, 3, 1]);
}

#[test]
fn seal_before_a_word_of_writes_stays_and_before_none_goes() {
    planned(&one_seal(4), &[1], [1, 1, 1]);
    planned(&one_seal(0), &[0], [1, 0, 2]);
}

#[test]
fn second_write_stays_watched() {
    planned(&two_writes(), &[1, 1, 1], [3, 3, 1]);
}

#[test]
fn reopen_that_prevents_an_alarm_stays_while_the_write_does() {
    // sealed to begin with; the write is reached with the reopen and without
    let nodes = vec![PLAIN_NODE, event(REOPEN), event(WRITE)];
    let job = PAIR.job(2, nodes, &[(0, 1), (0, 2), (1, 2)]);
    planned(&job, &[0, 1, 1], [2, 2, 1]);
    // reached with the reopen alone the write goes, and then the reopen in the next pass
    let nodes = vec![event(SEAL), event(REOPEN), event(WRITE)];
    let job = PAIR.job(2, nodes, &[(0, 1), (1, 2)]);
    planned(&job, &[0, 0, 0], [3, 0, 3]);
}

#[test]
fn job_without_a_point_takes_one_pass() {
    let mut job = pair();
    for node in &mut job.nodes {
        (node.kind, node.value) = (0, 0);
    }
    planned(&job, &[0, 0, 0], [0, 0, 1]);
    listed(&job, "T     0     0     1\n");
}

#[test]
fn point_that_no_walk_reaches_has_no_state_before_it_and_goes() {
    let mut job = two_writes();
    job.edges.clear();
    let lines = "\
W     0     0     1     1     1     0
W     1     2     0     1     1     0
W     2     2     0     1     1     0
T     3     0     2
";
    listed(&job, lines);
}

#[test]
fn sizes_at_the_limits_are_accepted_and_past_them_refused_as_5() {
    let mut random = Random::fixed(8);
    let small = Sizes {
        states: 2,
        symbols: 1,
        nodes: 60,
        edges: 2_048,
    };
    for sizes in [
        small,
        Sizes {
            states: 16,
            ..small
        },
        FULL,
    ] {
        let file = sized::job(&mut random, sizes).file();
        let file = filled(&mut random, file);
        assert!(plan(&file, &mut [0; WORK], &mut [0; 512]).is_ok());
        assert!(list(&file, &mut [0; WORK], &mut [0; 32_768]).is_ok());
    }
    for (field, value) in [
        (0, 17),
        (1, 17),
        (2, 513),
        (3, 2_049),
        (0, 0),
        (1, 0),
        (2, 0),
    ] {
        let mut lines = sized::job(&mut random, small).lines();
        lines[0].numbers[field] = value;
        let file = dapohiru_second::job::spell(&lines);
        refused(&filled(&mut random, file), 5);
    }
}

#[test]
fn empty_file_is_3_and_a_cut_line_4_and_the_same_edge_twice_8() {
    refused(b"", 3);
    let file = pair().file();
    refused(&file[..file.len() - 1], 4);
    refused(&file[..file.len() - 14], 3);
    let mut job = pair();
    job.edges = vec![(0, 1), (0, 1)];
    refused(&job.file(), 8);
    refused(&[&file[..], b"\n"].concat(), 9);
    refused(&pair().without_entry().file(), 10);
    let answer = plan(&file, &mut [0; WORK], &mut [0; 511]);
    assert_eq!(answer, Err(Refusal(2)));
}
