//! Random small jobs whose alarm needs a sequence of symbols: points report the first of them, a call
//! the next and the word after its exit the last, so that a difference needs long words. Or each symbol is
//! reported anywhere, with few edges, so that a difference needs a walk that comes in again or returns.
use crate::random::Random;
use dapohiru_second::job::{Job, Node, CALL, EVENT, PLAIN, REENTRANT};
use std::collections::BTreeSet;

/// A random job of this kind.
pub fn job(random: &mut Random) -> Job {
    let symbols = random.between(1, 3);
    let awaited: Vec<_> = (0..random.between(2, 5))
        .map(|_| random.below(symbols))
        .collect();
    let by_points = random.between(1, awaited.len() as u64 - 1) as usize;
    let by_call = random.between(0, (awaited.len() - by_points) as u64) as usize;
    let (points, words) = awaited.split_at(by_points);
    let (called, after) = words.split_at(by_call);

    let mut nodes: Vec<_> = points.iter().map(|&symbol| node(EVENT, symbol)).collect();
    nodes.push(node(CALL, set(called)));
    if random.once_in(3) {
        nodes.insert(random.place(nodes.len()), node(PLAIN, 0));
    }
    nodes[0].entry = 1;
    let last = nodes.len() - 1;
    (nodes[last].exit, nodes[last].after) = (1, set(after));
    let mut edges: Vec<_> = (1..=last as u64).map(|node| (node - 1, node)).collect();
    if random.once_in(2) {
        let to = random.below(last as u64 + 1);
        edges.push((last as u64, to));
    }
    awaiting(symbols, &awaited, nodes, edges)
}

/// A node that is neither entry nor exit.
fn node(kind: u64, value: u64) -> Node {
    Node {
        kind,
        value,
        entry: 0,
        exit: 0,
        after: 0,
    }
}

/// The set of these symbols.
fn set(symbols: &[u64]) -> u64 {
    symbols.iter().fold(0, |set, symbol| set | 1 << symbol)
}

/// The job of these nodes whose rule alarms when these symbols came one after another, with any others between.
fn awaiting(symbols: u64, awaited: &[u64], nodes: Vec<Node>, edges: Vec<(u64, u64)>) -> Job {
    Job {
        symbols,
        finals: (0..=awaited.len())
            .map(|state| u64::from(state == awaited.len()))
            .collect(),
        next: (0..=awaited.len())
            .map(|state| {
                let awaits = |symbol| awaited.get(state) == Some(&symbol);
                let next = |symbol| if awaits(symbol) { state + 1 } else { state };
                (0..symbols).map(|symbol| next(symbol) as u64).collect()
            })
            .collect(),
        nodes,
        edges,
    }
}

/// A random job with calls that may come back in, in which points, their words and a word after an exit report
/// the symbols of the sequence, and the edges are few.
pub fn reentrant_job(random: &mut Random) -> Job {
    let symbols = random.between(2, 4);
    let awaited: Vec<_> = (0..random.between(2, 5))
        .map(|_| random.below(symbols))
        .collect();
    let mut nodes = vec![node(REENTRANT, 0), node(EVENT, awaited[0])];
    if random.once_in(3) {
        nodes.push(node(REENTRANT, 0));
    }
    let mut after = 0;
    for &symbol in &awaited[1..] {
        match random.below(4) {
            0 => nodes[0].value |= 1 << symbol,
            1 => after |= 1 << symbol,
            _ => nodes.push(node(EVENT, symbol)),
        }
    }
    random.shuffle(&mut nodes);
    for _ in 0..random.between(1, 2) {
        let exit = random.place(nodes.len());
        (nodes[exit].exit, nodes[exit].after) = (1, after);
    }
    for _ in 0..random.between(1, 2) {
        let entry = random.place(nodes.len());
        nodes[entry].entry = random.pick(&[1, 1, 1, 2]);
    }
    let count = nodes.len() as u64;
    let edges: BTreeSet<_> = (0..random.between(1, count))
        .map(|_| (random.below(count), random.below(count)))
        .collect();
    awaiting(symbols, &awaited, nodes, edges.into_iter().collect())
}
