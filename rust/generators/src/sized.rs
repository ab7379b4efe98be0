//! Random jobs of given sizes.
use crate::random::Random;
use crate::reentry::{half_turned, Reentry};
use dapohiru_second::job::{Job, Node};

/// How many states, symbols, nodes and edges a job has.
#[derive(Clone, Copy, Debug)]
pub struct Sizes {
    pub states: u64,
    pub symbols: u64,
    pub nodes: u64,
    pub edges: u64,
}

/// The sizes of the longest file, 49,914 bytes.
pub const FULL: Sizes = Sizes {
    states: 16,
    symbols: 16,
    nodes: 512,
    edges: 2048,
};

/// A random job of these sizes, one of two with calls that may come back in.
pub fn job(random: &mut Random, sizes: Sizes) -> Job {
    job_with(random, sizes, Reentry::Often)
}

/// The same, with calls that may come back in or without.
pub fn job_with(random: &mut Random, sizes: Sizes, reentry: Reentry) -> Job {
    let job = job_of_kinds_to_2(random, sizes);
    reentry.apply(random, job, half_turned)
}

/// A random job of these sizes, of kinds 0 to 2.
fn job_of_kinds_to_2(random: &mut Random, sizes: Sizes) -> Job {
    let Sizes {
        states, symbols, ..
    } = sizes;
    // no state final, all of them, or any
    let finals = random.below(4);
    let finals = (0..states)
        .map(|_| match finals {
            0 => 0,
            1 => 1,
            _ => random.below(2),
        })
        .collect();
    let next = (0..states)
        .map(|_| (0..symbols).map(|_| random.below(states)).collect())
        .collect();
    let mut nodes: Vec<_> = (0..sizes.nodes)
        .map(|_| node(random, states, symbols))
        .collect();
    let entry = random.place(nodes.len());
    nodes[entry].entry = random.between(1, (1 << states) - 1);
    Job {
        symbols,
        finals,
        next,
        nodes,
        edges: edges(random, sizes.nodes, sizes.edges),
    }
}

/// A random node of kind 0 to 2.
pub fn node(random: &mut Random, states: u64, symbols: u64) -> Node {
    let kind = random.below(3);
    let value = match kind {
        0 => 0,
        1 => random.below(symbols),
        _ => random.set(symbols),
    };
    let entry = if random.once_in(3) {
        random.set(states)
    } else {
        0
    };
    let exit = u64::from(random.once_in(3));
    Node {
        kind,
        value,
        entry,
        exit,
        after: exit * random.set(symbols),
    }
}

/// So many edges between `nodes` nodes, ascending, each choice as likely as any other.
fn edges(random: &mut Random, nodes: u64, count: u64) -> Vec<(u64, u64)> {
    assert!(
        count <= nodes * nodes,
        "{nodes} nodes have not {count} edges"
    );
    let mut chosen = Vec::new();
    for pair in 0..nodes * nodes {
        let due = count - chosen.len() as u64;
        if random.below(nodes * nodes - pair) < due {
            chosen.push((pair / nodes, pair % nodes));
        }
    }
    chosen
}

impl Sizes {
    /// Random sizes: mostly small ones, and now and then wide, middling or large ones.
    pub fn random(random: &mut Random) -> Self {
        let (width, nodes) = match random.below(32) {
            0..=23 => (4, 6),
            24..=29 => (16, 4),
            30 => (16, 40),
            _ => (2, 100),
        };
        let nodes = random.between(1, nodes);
        let most = (nodes * nodes).min(2048);
        let some = most.min(8);
        Sizes {
            states: random.between(1, width),
            symbols: random.between(1, width),
            nodes,
            edges: if random.once_in(8) {
                random.between(0, most)
            } else {
                random.between(0, some)
            },
        }
    }
}
