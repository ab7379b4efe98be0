//! Runs of additions and removals on the same lists.
use super::{Case, Kind};
use dapohiru_generators::arrivals as graphs;
use dapohiru_generators::random::Random;
use dapohiru_second::arrivals::{Call, Edge, Lists, MOST_EDGES};
use std::collections::BTreeSet;

/// A graph and the lists that calls leave of it.
pub struct Run {
    pub nodes: usize,
    pub edges: BTreeSet<Edge>,
    pub lists: Lists,
}

impl Run {
    /// The lists of some edges, long enough for all that so many nodes can have, with any numbers past them.
    pub fn begin(random: &mut Random, nodes: usize, count: usize) -> Self {
        let edges = graphs::edges(random, nodes, count);
        Run::of(random, nodes, &edges)
    }

    /// The same of these edges.
    pub fn of(random: &mut Random, nodes: usize, edges: &[Edge]) -> Self {
        let mut lists = Lists::of(nodes, edges);
        let most = graphs::most(nodes);
        for (list, len) in lists.all_mut().into_iter().zip([2 * most, most, nodes + 1]) {
            let any = (list.len()..len + 3).map(|_| random.number() as u16);
            list.extend(any.collect::<Vec<_>>());
        }
        Run {
            nodes,
            edges: edges.iter().copied().collect(),
            lists,
        }
    }

    /// Any addition or removal, more often one that leads to so many edges: of an edge that is there or not.
    pub fn any(&self, random: &mut Random, wanted: usize) -> (Kind, Edge) {
        let up = self.edges.len() < wanted;
        let kind = match random.below(5) {
            0 if up => Kind::Drop,
            0 => Kind::Add,
            _ if up => Kind::Add,
            _ => Kind::Drop,
        };
        let edges: Vec<_> = self.edges.iter().copied().collect();
        let sound = match kind {
            Kind::Add => graphs::absent(random, self.nodes, &edges),
            _ => graphs::present(random, &edges),
        };
        let any = graphs::any(random, self.nodes);
        match random.once_in(8) {
            true => (kind, any),
            false => (kind, sound.unwrap_or(any)),
        }
    }

    /// The call of a change on the lists.
    pub fn case(&self, (kind, edge): (Kind, Edge)) -> Case {
        Case {
            call: Call {
                asked: kind.of(edge),
                nodes: self.nodes as u64,
                count: self.edges.len() as u64,
            },
            lists: self.lists.clone(),
        }
    }

    /// Changes the edges, where a call would; says whether it would.
    pub fn change(&mut self, (kind, edge): (Kind, Edge)) -> bool {
        match kind {
            Kind::Add => (self.edges.len() as u64) < MOST_EDGES && self.edges.insert(edge),
            _ => self.edges.remove(&edge),
        }
    }
}
