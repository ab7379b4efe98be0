//! Where `watch` starts.
use crate::program::{example, file, folder, pair_with};
use crate::watch::{totals, watch};

/// PAIR with three entries: node 0 in state 0, node 1 in the states 1 and 2, node 2 in state 1.
fn entries(test: &str) -> String {
    let job = pair_with(&[
        (
            "P     1     1     0     0     0",
            "P     1     1     0     6     0",
        ),
        (
            "P     2     1     2     0     1",
            "P     2     1     2     2     1",
        ),
    ]);
    file(&folder(test), "entries.job", job.as_bytes())
}

/// The admitted starts of that job.
const STARTS: &str = "the admitted starts are:\n  before node 0 in state 0\n  before node 1 in states 1, 2\n  before node 2 in state 1\n";

#[test]
fn start_that_is_admitted_and_fixed_is_printed() {
    let job = entries("start-fixed");
    for (words, start, state) in [
        (&["--entry", "0"][..], "node 0 in state 0", 0),
        (&["--entry=0", "--state=0"], "node 0 in state 0", 0),
        (&["--entry", "1", "--state", "1"], "node 1 in state 1", 1),
        (&["--entry", "1", "--state", "2"], "node 1 in state 2", 2),
        (&["--entry", "2"], "node 2 in state 1", 1),
        (&["--state", "0"], "node 0 in state 0", 0),
        (&["--state", "1"], "nodes 1, 2 in state 1", 1),
        (&["--state", "02"], "node 1 in state 2", 2),
    ] {
        let done = watch(&[&[&job[..]], words].concat(), "");
        let printed = format!("starts before {start}\n{}", totals([0, 0, 0, 0, 0, state]));
        assert_eq!(done, (0, printed, String::new()), "{words:?}");
    }
}

#[test]
fn start_that_is_not_fixed_or_not_admitted_is_refused_with_the_admitted_ones() {
    let job = entries("start-refused");
    let pair = example("pair.job");
    let only = "the admitted starts are:\n  before node 0 in state 0\n";
    let several = "there are several admitted starts, so give --entry N, --state Q or both";
    for (job, words, why, starts) in [
        (&job, &[][..], several, STARTS),
        (
            &example("again-sets.job"),
            &[],
            several,
            "the admitted starts are:\n  before node 0 in states 0, 1, 2\n",
        ),
        (
            &job,
            &["--entry", "1"],
            "the entry 1 admits several states, so --state Q is asked for too",
            STARTS,
        ),
        (
            &job,
            &["--entry", "0", "--state", "1"],
            "the entry 0 does not admit state 1",
            STARTS,
        ),
        (&pair, &["--entry", "1"], "node 1 is no entry", only),
        (
            &pair,
            &["--entry", "2", "--state", "0"],
            "node 2 is no entry",
            only,
        ),
        (&pair, &["--state", "1"], "no entry admits state 1", only),
        (
            &pair,
            &["--entry=0", "--state=2"],
            "the entry 0 does not admit state 2",
            only,
        ),
    ] {
        let done = watch(&[&[&job[..]], words].concat(), "0\n1\n2\n");
        let wrong = format!("dapohiru: watch: {why}; {starts}");
        assert_eq!(done, (2, String::new(), wrong), "{words:?}");
    }
}

#[test]
fn node_or_state_that_the_job_lacks_is_refused_with_the_limits() {
    let job = entries("start-limits");
    for number in ["3", "x", "-1", "+1", " 1", "99999999999999999999"] {
        for (option, things) in [("--entry", "nodes"), ("--state", "states")] {
            let done = watch(&[&job, &format!("{option}={number}")], "0\n");
            let wrong =
                format!("dapohiru: watch: {option} is {number}, and the {things} are 0 to 2\n");
            assert_eq!(done, (2, String::new(), wrong));
        }
    }
}

#[test]
fn entries_that_admit_the_same_states_are_listed_together() {
    let job = pair_with(&[
        ("P     0     1     0     1", "P     0     1     0     5"),
        (
            "P     1     1     0     0     0",
            "P     1     1     0     2     0",
        ),
        (
            "P     2     1     2     0     1",
            "P     2     1     2     5     1",
        ),
    ]);
    let folder = folder("start-alike");
    let job = file(&folder, "alike.job", job.as_bytes());
    let names = file(&folder, "a.names", b"node 2 write\nstate 0 open\n");
    let done = watch(&[&job, "--names", &names], "");
    let wrong = "dapohiru: watch: there are several admitted starts, so give --entry N, --state Q or both; \
                 the admitted starts are:\n  before nodes 0, 2 write in states 0 open, 2\n  before node 1 in state 1\n";
    assert_eq!(done, (2, String::new(), wrong.to_string()));
}

#[test]
fn alarm_of_a_batch_that_came_in_elsewhere_is_raised() {
    // sealed before, the batch comes in at the second seal or at the write
    let job = entries("start-elsewhere");
    let (status, printed, wrong) = watch(&[&job, "--state", "1"], "2\n");
    assert_eq!((status, wrong.as_str()), (1, ""));
    assert!(printed.contains("alarm at event 1 (line 1): node 2, symbol 2, state 2 ["));
}
