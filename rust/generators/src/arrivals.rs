//! Edges with their arrivals (document 02, "Arrivals index beside the edges"): random graphs and ones at the limits,
//! lists with numbers past their ends, damaged lists, and numbers that could be taken for others.
use crate::random::Random;
use dapohiru_second::arrivals::{Edge, Lists, MOST_EDGES, MOST_NODES};
use std::collections::BTreeSet;

/// N: any count, many of them at a limit.
pub fn nodes(random: &mut Random) -> usize {
    let nodes = match random.below(4) {
        0 => random.pick(&[1, 2, MOST_NODES - 1, MOST_NODES]),
        1 => random.between(1, 4),
        2 => random.between(1, 50),
        _ => random.between(1, MOST_NODES),
    };
    nodes as usize
}

/// The most edges of so many nodes.
pub fn most(nodes: usize) -> usize {
    (nodes * nodes).min(MOST_EDGES as usize)
}

/// How many edges: any count that so many nodes can have, many of them at a limit or few.
pub fn count(random: &mut Random, nodes: usize) -> usize {
    let most = most(nodes);
    match random.below(12) {
        0 => random.pick(&[0, 1.min(most), most - 1, most]),
        1 => random.place(most + 1),
        _ => random.place(most.min(30) + 1),
    }
}

/// The nodes that many edges lead to or from: the first two and the last two.
fn few(nodes: usize) -> Vec<u16> {
    let few = [0, 1, nodes.saturating_sub(2), nodes - 1];
    let few: BTreeSet<_> = few.into_iter().filter(|&node| node < nodes).collect();
    few.into_iter().map(|node| node as u16).collect()
}

/// From every node to the same four, ascending.
pub fn to_few(nodes: usize) -> Vec<Edge> {
    let few = few(nodes);
    let from = 0..nodes as u16;
    from.flat_map(|from| few.iter().map(move |&to| (from, to)))
        .collect()
}

/// From each of four nodes to every node, ascending.
pub fn from_few(nodes: usize) -> Vec<Edge> {
    let few = few(nodes).into_iter();
    few.flat_map(|from| (0..nodes as u16).map(move |to| (from, to)))
        .collect()
}

/// So many edges of so many nodes, ascending: spread, or now and then as many as there are of those to few nodes, or from
/// few.
pub fn edges(random: &mut Random, nodes: usize, count: usize) -> Vec<Edge> {
    let few = few(nodes);
    let node = random.pick(&few);
    let first = match random.below(16) {
        0 => to_few(nodes),
        1 => from_few(nodes),
        2 => (0..nodes as u16).map(|from| (from, node)).collect(),
        3 => (0..nodes as u16).map(|to| (node, to)).collect(),
        _ => Vec::new(),
    };
    with(random, nodes, count, first)
}

/// So many edges of so many nodes, ascending, which are spread.
pub fn spread(random: &mut Random, nodes: usize, count: usize) -> Vec<Edge> {
    with(random, nodes, count, Vec::new())
}

/// So many edges of so many nodes, ascending: of these, in any order, and when there are no more of any.
fn with(random: &mut Random, nodes: usize, count: usize, mut first: Vec<Edge>) -> Vec<Edge> {
    random.shuffle(&mut first);
    first.truncate(count);
    let mut edges: BTreeSet<_> = first.into_iter().collect();
    if nodes * nodes < 2 * count {
        let ends = 0..nodes as u16;
        let mut all: Vec<_> = ends
            .clone()
            .flat_map(|from| ends.clone().map(move |to| (from, to)))
            .collect();
        all.retain(|edge| !edges.contains(edge));
        random.shuffle(&mut all);
        edges.extend(&all[..count - edges.len()]);
    }
    while edges.len() < count {
        edges.insert(any(random, nodes));
    }
    edges.into_iter().collect()
}

/// Any edge of so many nodes; now and then to one of the first or the last, so that some have many predecessors.
pub fn any(random: &mut Random, nodes: usize) -> Edge {
    let [from, to] = [(); 2].map(|()| random.place(nodes));
    let to = match random.below(8) {
        0 => random.place(nodes.min(3)),
        1 => nodes - 1,
        _ => to,
    };
    (from as u16, to as u16)
}

/// One of these edges, if there is one: often the first or the last.
pub fn present(random: &mut Random, edges: &[Edge]) -> Option<Edge> {
    let last = edges.len().checked_sub(1)?;
    let any = random.place(edges.len());
    Some(edges[random.pick(&[any, any, any, any, 0, last])])
}

/// An edge that is none of these, if there is one: any, one before or past all, or one with an end of one of these, so
/// that a node with many predecessors gets more and one that many edges lead from does.
pub fn absent(random: &mut Random, nodes: usize, edges: &[Edge]) -> Option<Edge> {
    if edges.len() == nodes * nodes {
        return None;
    }
    let is_absent = |edge: &Edge| edges.binary_search(edge).is_err();
    let last = nodes as u16 - 1;
    let limits = [(0, 0), (0, last), (last, 0), (last, last)];
    let limit = random.pick(&limits);
    if random.once_in(4) && is_absent(&limit) {
        return Some(limit);
    }
    if random.once_in(4) {
        if let Some((from, to)) = present(random, edges) {
            let is_to = random.once_in(2);
            let mut beside: Vec<_> = (0..=last)
                .map(|node| if is_to { (node, to) } else { (from, node) })
                .filter(is_absent)
                .collect();
            random.shuffle(&mut beside);
            if let Some(&edge) = beside.first() {
                return Some(edge);
            }
        }
    }
    // of a graph with few gaps the next one
    for _ in 0..64 {
        let edge = any(random, nodes);
        if is_absent(&edge) {
            return Some(edge);
        }
    }
    let ends = 0..=last;
    let mut all = ends
        .clone()
        .flat_map(|from| ends.clone().map(move |to| (from, to)));
    all.find(is_absent)
}

/// Edges that are not what a list holds: with two of them turned round, one twice, one from or to a node of N or more.
pub fn unsound(random: &mut Random, nodes: usize, edges: &[Edge]) -> Vec<Edge> {
    let mut edges = edges.to_vec();
    let len = edges.len();
    let past = random.pick(&[0, 0, 1, 255, 256]) + nodes as u16;
    match random.below(6) {
        0 if len > 1 => edges.swap(0, 1),
        1 if len > 1 => edges.swap(len - 2, len - 1),
        2 if len > 1 => {
            let place = 1 + random.place(len - 1);
            edges.swap(place - 1, place);
        }
        3 if len > 0 => {
            let place = random.place(len);
            edges.insert(place, edges[place]);
        }
        4 => edges.push((past, random.place(nodes) as u16)),
        _ => {
            let from = random.place(nodes) as u16;
            let place = edges.partition_point(|edge| *edge < (from, past));
            edges.insert(place, (from, past));
        }
    }
    edges
}

/// Puts numbers past each list, up to so many: nodes, zeros, or any.
pub fn extend(random: &mut Random, lists: &mut Lists, nodes: usize, most: usize) {
    for list in lists.all_mut() {
        for _ in 0..random.place(most + 1) {
            let any = random.number() as u16;
            let node = random.place(nodes) as u16;
            list.push(random.pick(&[any, node, node, 0]));
        }
    }
}

/// Damages lists of these numbers of nodes and edges: changes a number, swaps two neighbours, or puts one in the place of
/// another, in what one of them holds.
pub fn damage(random: &mut Random, lists: &mut Lists, nodes: usize, count: usize) {
    let held = [2 * count, count, nodes + 1];
    let list = match random.pick(&[0, 1, 1, 2, 2]) {
        0 | 1 if count == 0 => 2,
        list => list,
    };
    let numbers = &mut lists.all_mut()[list][..held[list]];
    let last = numbers.len() - 1;
    let any = random.place(numbers.len());
    let place = random.pick(&[any, any, any, 0, last]);
    let number = numbers[place];
    match random.below(4) {
        0 if place > 0 && numbers[place - 1] != number => numbers.swap(place - 1, place),
        1 => numbers[place] = number ^ 1 << random.below(16),
        2 => numbers[place] = number.wrapping_add(1),
        _ => numbers[place] = number.wrapping_sub(1),
    }
}

/// A number that is this one where high bits are lost, or one that could be taken for none.
pub fn with_high_bits(random: &mut Random, number: u64) -> u64 {
    match random.below(8) {
        0 => u64::MAX,
        1 => number.wrapping_neg(),
        2 | 3 => number + (1 << 16),
        4 => number + (1 << 32),
        5 => number + (1 << 63),
        _ => number + (1 << random.between(16, 63)),
    }
}
