//! Random small jobs whose points stand in rings under a rule that turns and gathers: there a point
//! that had to stay in one pass may go in a later one.
use crate::random::Random;
use dapohiru_second::job::{Job, Node, EVENT, PLAIN};
use std::collections::BTreeSet;

/// A random job of this kind: mostly points, in one or two rings.
pub fn job(random: &mut Random) -> Job {
    let states = random.between(3, 6);
    let symbols = random.between(2, 3);
    let nodes = random.between(2, 6);
    let last = states - 1;
    let next: Vec<Vec<u64>> = (0..states)
        .map(|state| {
            let row = (0..symbols).map(|_| match random.below(4) {
                0 => state,
                1 => random.below(states),
                _ => random.below(last),
            });
            row.collect()
        })
        .collect();
    let mut edges: BTreeSet<_> = (0..nodes).map(|node| (node, (node + 1) % nodes)).collect();
    if random.once_in(2) {
        edges.insert((random.below(nodes), random.below(nodes)));
    }
    let mut nodes: Vec<_> = (0..nodes)
        .map(|_| {
            let kind = if random.once_in(8) { PLAIN } else { EVENT };
            Node {
                kind,
                value: kind * random.below(symbols),
                entry: 0,
                exit: 0,
                after: 0,
            }
        })
        .collect();
    nodes[0].entry = 1;
    Job {
        symbols,
        finals: (0..states).map(|state| u64::from(state == last)).collect(),
        next,
        nodes,
        edges: edges.into_iter().collect(),
    }
}
