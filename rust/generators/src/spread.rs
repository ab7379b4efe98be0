//! A small job spread over the nodes of a large one: no walk reaches the others, so that plans of the
//! small job are faithful in the large one exactly when they are in the small.
use crate::random::Random;
use crate::sized;
use dapohiru_second::job::{Job, Node};
use std::collections::BTreeSet;

/// The large job, and for each node of the small one its number there.
#[derive(Clone, Debug)]
pub struct Spread {
    pub job: Job,
    pub numbers: Vec<usize>,
}

impl Spread {
    /// Spreads a small job over 16 to 512 nodes, often over 512.
    pub fn any(random: &mut Random, small: &Job) -> Self {
        let nodes = random.pick(&[16, 64, 65, 255, 256, 257, 511, 512, 512, 512]);
        Spread::random(random, small, nodes)
    }

    /// Spreads a small job over so many nodes, in any order; mostly the last of them is one of its own.
    pub fn random(random: &mut Random, small: &Job, nodes: usize) -> Self {
        let mut numbers: Vec<_> = (0..nodes).collect();
        random.shuffle(&mut numbers);
        numbers.truncate(small.nodes.len());
        if !random.once_in(4) && !numbers.contains(&(nodes - 1)) {
            let place = random.place(numbers.len());
            numbers[place] = nodes - 1;
        }
        if random.once_in(2) {
            numbers.sort();
        }
        let states = small.states() as u64;
        let mut all: Vec<_> = (0..nodes)
            .map(|_| Node {
                entry: 0,
                ..sized::node(random, states, small.symbols)
            })
            .collect();
        for (node, &number) in small.nodes.iter().zip(&numbers) {
            all[number] = node.clone();
        }
        let number = |node: u64| numbers[node as usize] as u64;
        let mut edges: BTreeSet<_> = small
            .edges
            .iter()
            .map(|&(from, to)| (number(from), number(to)))
            .collect();
        // edges from nodes that no walk reaches lead anywhere
        let most = if nodes * (nodes - numbers.len()) > 4_096 {
            2_048
        } else {
            small.edges.len()
        };
        while edges.len() < most {
            let from = random.place(nodes);
            if !numbers.contains(&from) {
                edges.insert((from as u64, random.below(nodes as u64)));
            }
        }
        Spread {
            job: Job {
                nodes: all,
                edges: edges.into_iter().collect(),
                ..small.clone()
            },
            numbers,
        }
    }

    /// A plan of the small job in the large one, where the points that no walk reaches get any byte.
    pub fn plan(&self, random: &mut Random, small: &[u8]) -> Vec<u8> {
        let mut plan = vec![0; self.job.nodes.len()];
        for point in self.job.points() {
            plan[point] = random.below(2) as u8;
        }
        for (&number, &byte) in self.numbers.iter().zip(small) {
            plan[number] = byte;
        }
        plan
    }
}
