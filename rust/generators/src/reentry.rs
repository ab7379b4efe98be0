//! Calls that may come back in (kind 3), put into random jobs that are drawn without them.
use crate::random::Random;
use crate::small::word_set;
use dapohiru_second::job::{Job, Node, CALL, PLAIN, REENTRANT};

/// Which jobs get calls that may come back in.
#[derive(Clone, Copy, Debug, PartialEq, Eq)]
pub enum Reentry {
    /// None. No random number is drawn for it, so that jobs with stored answers are made again.
    Never,
    /// One in two.
    Often,
    /// All.
    Always,
}

impl Reentry {
    /// Changes a job in this way, if it is one that gets such calls.
    pub fn apply(
        self,
        random: &mut Random,
        job: Job,
        put_in: impl FnOnce(&mut Random, Job) -> Job,
    ) -> Job {
        let gets_some = match self {
            Reentry::Never => false,
            Reentry::Often => random.once_in(2),
            Reentry::Always => true,
        };
        if gets_some {
            put_in(random, job)
        } else {
            job
        }
    }
}

/// A small job with calls that may come back in: nodes of its own that were calls or plain, and now and then
/// one more node. Mostly it has an exit too, and now and then another entry.
pub fn reentered(random: &mut Random, mut job: Job) -> Job {
    let symbols = job.symbols;
    for node in &mut job.nodes {
        match node.kind {
            CALL if random.once_in(2) => node.kind = REENTRANT,
            PLAIN if random.once_in(4) => {
                (node.kind, node.value) = (REENTRANT, random.set(symbols));
            }
            _ => {}
        }
    }
    if job.reentrant().is_empty() || random.once_in(4) {
        add_call(random, &mut job);
    }
    if !random.once_in(4) {
        let (node, after) = (random.place(job.nodes.len()), word_set(random, symbols));
        let exit = &mut job.nodes[node];
        (exit.exit, exit.after) = (1, random.pick(&[0, after]));
    }
    if random.once_in(6) {
        let node = random.place(job.nodes.len());
        job.nodes[node].entry = random.some_set(job.states() as u64);
    }
    job
}

/// Adds a call that may come back in after the last node, mostly with an edge to it and one from it.
fn add_call(random: &mut Random, job: &mut Job) {
    let call = job.nodes.len() as u64;
    job.nodes.push(Node {
        kind: REENTRANT,
        value: word_set(random, job.symbols),
        entry: 0,
        exit: 0,
        after: 0,
    });
    if !random.once_in(4) {
        job.edges.push((random.below(call), call));
    }
    if !random.once_in(4) {
        job.edges.push((call, random.below(call + 1)));
    }
    job.edges.sort();
    job.edges.dedup();
}

/// The job with so many of its calls, or all of them, turned into ones that may come back in. Where it has no
/// call, plain nodes are.
pub fn turned(random: &mut Random, mut job: Job, count: u64) -> Job {
    let of_kind = |kind: u64| {
        let is = |&node: &usize| job.nodes[node].kind == kind;
        (0..job.nodes.len()).filter(is).collect::<Vec<_>>()
    };
    let mut nodes = match of_kind(CALL) {
        none if none.is_empty() => of_kind(PLAIN),
        calls => calls,
    };
    random.shuffle(&mut nodes);
    nodes.truncate(count as usize);
    for node in nodes {
        job.nodes[node].kind = REENTRANT;
    }
    job
}

/// The job with about half of its calls turned into ones that may come back in.
pub fn half_turned(random: &mut Random, job: Job) -> Job {
    let calls = job.nodes.iter().filter(|node| node.kind == CALL).count() as u64;
    let count = random.between(calls / 3, calls / 2 + 1);
    turned(random, job, count)
}
