//! The jobs.
use dapohiru_generators::samples::{
    call, event, exit, reentrant, Rule, PAIR, PLAIN_NODE, REOPEN, WRITE as WRITE_OF_PAIR,
};
use dapohiru_second::job::{Job, CALL, REENTRANT};

/// PAIR's rule without reopen: a write in state 1, sealed, alarms, and so does each write after it.
const RULE: Rule = Rule {
    next: &[&[1, 0], &[1, 2], &[1, 2]],
    finals: &[2],
};
const SEAL: u64 = 0;
const WRITE: u64 = 1;
/// The sets of one symbol.
const SEALS: u64 = 1 << SEAL;
const WRITES: u64 = 1 << WRITE;

/// Write, seal, and a call that comes in again at the write.
pub fn comes_in() -> Job {
    let nodes = vec![event(WRITE), event(SEAL), reentrant(0)];
    RULE.job(1, nodes, &[(0, 1), (1, 2)])
}

/// Node 0 goes to a call with a write behind it, or to a seal that is an exit.
pub fn returns() -> Job {
    let nodes = vec![PLAIN_NODE, reentrant(0), event(WRITE), exit(event(SEAL), 0)];
    RULE.job(1, nodes, &[(0, 1), (0, 3), (1, 2)])
}

/// Seal and reopen, an exit; a write stands behind a call to which no edge leads.
pub fn nop_lost() -> Job {
    let nodes = vec![
        event(SEAL),
        exit(event(REOPEN), 0),
        reentrant(0),
        event(WRITE_OF_PAIR),
    ];
    PAIR.job(1, nodes, &[(0, 1), (2, 3)])
}

/// A call with writes is the entry, with a seal behind it that is an exit.
pub fn entry_call() -> Job {
    let nodes = vec![reentrant(WRITES), exit(event(SEAL), 0)];
    RULE.job(1, nodes, &[(0, 1)])
}

/// A write, and behind it a call without symbols that is an exit with seals after it.
pub fn exit_call() -> Job {
    let nodes = vec![event(WRITE), exit(reentrant(0), SEALS)];
    RULE.job(1, nodes, &[(0, 1)])
}

/// A seal that is an exit, and a call with writes; no edge.
pub fn no_edge() -> Job {
    RULE.job(1, vec![exit(event(SEAL), 0), reentrant(WRITES)], &[])
}

/// A seal alone, and a call with a write behind it that is an exit, which no walk reaches.
pub fn no_exit() -> Job {
    let nodes = vec![event(SEAL), reentrant(WRITES), exit(event(WRITE), 0)];
    RULE.job(1, nodes, &[(1, 2)])
}

/// Two entries, admitting 0 and 1, whose events lead to 2 and on to a call.
pub fn neither() -> Job {
    let rule = Rule {
        next: &[&[2], &[2], &[3], &[3]],
        finals: &[3],
    };
    let mut job = rule.job(1, vec![event(0), event(0), reentrant(0)], &[(0, 2), (1, 2)]);
    job.nodes[1].entry = 2;
    job
}

/// An exit with writes after it, to which a seal leads that stands behind a call.
pub fn late_word() -> Job {
    let nodes = vec![exit(PLAIN_NODE, WRITES), reentrant(0), event(SEAL)];
    RULE.job(1, nodes, &[(1, 2), (2, 0)])
}

/// A write, and behind it a call with seals.
pub fn own_word() -> Job {
    RULE.job(1, vec![event(WRITE), reentrant(SEALS)], &[(0, 1)])
}

/// A seal that is an exit, a call that may come back in without symbols, and another call with writes.
pub fn two_calls(kind: u64) -> Job {
    let mut other = call(WRITES);
    other.kind = kind;
    RULE.job(1, vec![exit(event(SEAL), 0), reentrant(0), other], &[])
}

/// The job with calls that never come back in.
pub fn with_kind_2(mut job: Job) -> Job {
    for node in &mut job.nodes {
        if node.kind == REENTRANT {
            node.kind = CALL;
        }
    }
    job
}
