//! Random small jobs in which plans are sometimes faithful and sometimes not: loops, calls that need
//! words of several events, calls that come back in, exits with after sets and edges, several entries, nodes
//! that no walk reaches.
use crate::random::Random;
use crate::reentry::{reentered, Reentry};
use crate::story;
use crate::widen::widened;
use dapohiru_second::job::{Job, Node, CALL, EVENT, PLAIN};
use std::collections::BTreeSet;

/// How large a small job is at most.
#[derive(Clone, Copy, Debug)]
struct Most {
    states: u64,
    symbols: u64,
    nodes: u64,
}

/// A random small job, one of four with its states and symbols at any places among sixteen, and one of two
/// with calls that may come back in.
pub fn job(random: &mut Random) -> Job {
    job_with(random, Reentry::Often)
}

/// The same, with calls that may come back in or without.
pub fn job_with(random: &mut Random, reentry: Reentry) -> Job {
    let job = if random.once_in(6) {
        story::job(random)
    } else {
        narrow_job(random)
    };
    let job = reentry.apply(random, job, |random, job| match random.below(3) {
        0 => story::reentrant_job(random),
        _ => reentered(random, job),
    });
    if random.once_in(4) {
        return widened(random, &job);
    }
    job
}

/// Mostly a few nodes, states and symbols.
fn narrow_job(random: &mut Random) -> Job {
    let most = match random.below(16) {
        0..=11 => Most {
            states: 5,
            symbols: 4,
            nodes: 7,
        },
        12..=13 => Most {
            states: 4,
            symbols: 3,
            nodes: 14,
        },
        _ => Most {
            states: 16,
            symbols: 16,
            nodes: 6,
        },
    };
    let full = most.states == 16 && random.once_in(2);
    let mut count = |most: u64| if full { most } else { random.between(1, most) };
    let (states, symbols) = (count(most.states), count(most.symbols));
    let nodes = random.between(1, most.nodes);
    let (finals, next) = if random.once_in(3) {
        lock(random, states, symbols)
    } else {
        rule(random, states, symbols)
    };
    Job {
        symbols,
        finals,
        next,
        nodes: nodes_with_entries(random, nodes, states, symbols),
        edges: edges(random, nodes),
    }
}

/// What a symbol does to the states.
#[derive(Clone, Copy)]
enum Act {
    /// Moves each anywhere.
    Any,
    /// Moves a third of them anywhere.
    Some,
    /// Moves all to one.
    Gather,
    /// Moves one of them.
    Stay,
    /// Moves each to the one after it, the last to the first.
    Turn,
}

/// Final marks and next states.
fn rule(random: &mut Random, states: u64, symbols: u64) -> (Vec<u64>, Vec<Vec<u64>>) {
    // one final state, the last one, none, all or any
    let one = random.below(states);
    let shape = random.below(12);
    let finals = (0..states)
        .map(|state| match shape {
            0..=4 => u64::from(state == one),
            5..=7 => u64::from(state == states - 1),
            8 => 0,
            9 => 1,
            _ => random.below(2),
        })
        .collect();
    let acts = [Act::Any, Act::Some, Act::Gather, Act::Stay, Act::Turn];
    let columns: Vec<Vec<u64>> = (0..symbols)
        .map(|_| {
            let act = random.pick(&acts);
            let target = random.below(states);
            (0..states)
                .map(|state| match act {
                    Act::Any => random.below(states),
                    Act::Some if random.once_in(3) => random.below(states),
                    Act::Gather => target,
                    Act::Stay if state == one => target,
                    Act::Turn => (state + 1) % states,
                    _ => state,
                })
                .collect()
        })
        .collect();
    let row = |state: usize| columns.iter().map(|column| column[state]).collect();
    (finals, (0..states as usize).map(row).collect())
}

/// A rule that waits for certain symbols, one after another, and alarms at the last of them.
fn lock(random: &mut Random, states: u64, symbols: u64) -> (Vec<u64>, Vec<Vec<u64>>) {
    let last = states - 1;
    let other = random.pick(&[0, 1, 2]);
    let next = (0..states)
        .map(|state| {
            let awaited = random.below(symbols);
            (0..symbols)
                .map(|symbol| match other {
                    _ if state == last => random.below(states),
                    _ if symbol == awaited => state + 1,
                    0 => 0,
                    1 => state,
                    _ => random.below(state + 1),
                })
                .collect()
        })
        .collect();
    (
        (0..states).map(|state| u64::from(state == last)).collect(),
        next,
    )
}

/// Nodes of all kinds, one of them at least an entry.
fn nodes_with_entries(random: &mut Random, count: u64, states: u64, symbols: u64) -> Vec<Node> {
    let points = random.between(1, 4);
    let mut nodes: Vec<_> = (0..count)
        .map(|_| {
            let kind = match random.below(6) {
                kind if kind < points => EVENT,
                kind if kind % 2 == 0 => PLAIN,
                _ => CALL,
            };
            let exit = u64::from(random.once_in(if kind == CALL { 2 } else { 4 }));
            Node {
                kind,
                value: match kind {
                    EVENT => random.below(symbols),
                    CALL => word_set(random, symbols),
                    _ => 0,
                },
                entry: if random.once_in(7) {
                    random.some_set(states)
                } else {
                    0
                },
                exit,
                after: exit * word_set(random, symbols),
            }
        })
        .collect();
    let first = if random.once_in(4) {
        random.place(nodes.len())
    } else {
        0
    };
    nodes[first].entry = if random.once_in(2) {
        1 << random.below(states)
    } else {
        random.some_set(states)
    };
    nodes
}

/// A set for words: one symbol, or any set.
pub fn word_set(random: &mut Random, symbols: u64) -> u64 {
    if random.once_in(2) {
        1 << random.below(symbols)
    } else {
        random.set(symbols)
    }
}

/// Mostly a row of nodes with some edges that skip, lead back or to the node itself.
fn edges(random: &mut Random, nodes: u64) -> Vec<(u64, u64)> {
    let mut edges = BTreeSet::new();
    let gap = random.pick(&[2, 5, 100]);
    for node in 1..nodes {
        if !random.once_in(gap) {
            edges.insert((node - 1, node));
        }
    }
    for _ in 0..random.below(nodes + 1) {
        edges.insert((random.below(nodes), random.below(nodes)));
    }
    if random.once_in(3) {
        let node = random.below(nodes);
        edges.insert((node, node));
    }
    edges.into_iter().collect()
}

/// A plan of a job: all its points, none, or any of them.
pub fn plan(random: &mut Random, job: &Job) -> Vec<u8> {
    match random.below(3) {
        0 => job.all_watched(),
        1 => job.plan_of(&[]),
        _ => {
            let mut points = job.points();
            points.retain(|_| random.once_in(2));
            job.plan_of(&points)
        }
    }
}

/// Random plans of a job: every one where there are at most 6 points, else some of them.
pub fn plans(random: &mut Random, job: &Job) -> Vec<Vec<u8>> {
    let points = job.points();
    let plan = |bits: u64| {
        let watched = |&place: &usize| bits >> place & 1 == 1;
        let chosen = (0..points.len()).filter(watched);
        job.plan_of(&chosen.map(|place| points[place]).collect::<Vec<_>>())
    };
    if points.len() <= 6 {
        return (0..1 << points.len()).map(plan).collect();
    }
    let mut plans = vec![job.all_watched(), plan(0)];
    plans.extend(points.iter().map(|&point| {
        let others = points.iter().copied().filter(|&other| other != point);
        job.plan_of(&others.collect::<Vec<_>>())
    }));
    plans.extend((0..20).map(|_| plan(random.number())));
    plans
}
