//! Random jobs of 512 nodes for the benchmarks, and smaller ones of the same kind: a long procedure
//! with half of its nodes in loops, under a rule for which about half of the points matter.
use crate::random::Random;
use crate::reentry::{turned, Reentry};
use dapohiru_second::job::{Job, Node, CALL, EVENT, PLAIN};
use std::collections::BTreeSet;

/// The nodes of a large job.
pub const NODES: u64 = 512;

/// How the nodes of a large job are numbered.
#[derive(Clone, Copy, Debug, PartialEq, Eq)]
pub enum Order {
    /// Along the flow: only the edges that close a loop lead back.
    Flow,
    /// Along the flow inside a loop or a straight part; these parts are in any order.
    Parts,
}

impl Order {
    /// One and the other in turn, the first for 0.
    pub fn in_turn(number: usize) -> Self {
        [Order::Flow, Order::Parts][number % 2]
    }
}

/// A random large job: 8 to 16 states and symbols, 1,000 to 2,048 edges, loops of 3 to 40 nodes; one of two has
/// calls that may come back in, 1 to 8 of them.
pub fn job(random: &mut Random, order: Order) -> Job {
    job_with(random, order, Reentry::Often)
}

/// The same, with calls that may come back in or without.
pub fn job_with(random: &mut Random, order: Order, reentry: Reentry) -> Job {
    job_of(random, order, NODES, reentry)
}

/// A job of the same kind with so many nodes, at least 16, and as many edges for each of them.
pub fn job_of(random: &mut Random, order: Order, count: u64, reentry: Reentry) -> Job {
    let job = job_of_kinds_to_2(random, order, count);
    reentry.apply(random, job, |random, job| {
        let calls = random.between(1, 8);
        turned(random, job, calls)
    })
}

/// A job of so many nodes of kinds 0 to 2.
fn job_of_kinds_to_2(random: &mut Random, order: Order, count: u64) -> Job {
    let states = random.between(8, 16);
    let symbols = random.between(8, 16);
    let rule = Rule::random(random, states, symbols);
    let mut flow = Flow::random(random, count);
    if order == Order::Parts {
        flow.renumber(random);
    }
    let nodes = nodes(random, &rule, flow.parts[0], count);
    Job {
        symbols,
        finals: rule.finals,
        next: rule.next,
        nodes,
        edges: flow.edges.into_iter().collect(),
    }
}

/// What a symbol does to the states that are not final.
#[derive(Clone, Copy, PartialEq, Eq)]
enum Act {
    /// Nothing.
    Idle,
    /// Moves all to one.
    Reset,
    /// Moves each to the one after it, the last to the first.
    Turn,
    /// Moves a few of them anywhere.
    Stir,
    /// Moves a few of them to a final state.
    Strike,
}

/// A rule, with its symbols by whether they do anything.
struct Rule {
    finals: Vec<u64>,
    next: Vec<Vec<u64>>,
    idle: Vec<u64>,
    busy: Vec<u64>,
}

impl Rule {
    /// A rule whose last states are final. Each final state goes on as one of the others does, so that
    /// leaving it for that one is of no matter to the alarms that follow.
    fn random(random: &mut Random, states: u64, symbols: u64) -> Self {
        let finals = random.between(1, 3);
        let quiet = states - finals;
        let mut next = vec![vec![0; symbols as usize]; states as usize];
        let (mut idle, mut busy) = (Vec::new(), Vec::new());
        for symbol in 0..symbols {
            let all = [Act::Idle, Act::Reset, Act::Turn, Act::Stir, Act::Strike];
            let act = match all.get(symbol as usize) {
                Some(&act) => act,
                None => random.pick(&all),
            };
            let target = random.below(quiet);
            for state in 0..quiet {
                next[state as usize][symbol as usize] = match act {
                    Act::Reset => target,
                    Act::Turn => (state + 1) % quiet,
                    Act::Stir if random.once_in(4) => random.below(quiet),
                    Act::Strike if random.once_in(4) => quiet + random.below(finals),
                    _ => state,
                };
            }
            if act == Act::Idle {
                idle.push(symbol);
            } else {
                busy.push(symbol);
            }
        }
        for state in quiet..states {
            next[state as usize] = next[random.place(quiet as usize)].clone();
        }
        Rule {
            finals: (0..states).map(|state| u64::from(state >= quiet)).collect(),
            next,
            idle,
            busy,
        }
    }
}

/// Nodes of all kinds; `first` is an entry, and some others are.
fn nodes(random: &mut Random, rule: &Rule, first: u64, count: u64) -> Vec<Node> {
    let states = rule.next.len() as u64;
    let symbols = rule.next[0].len() as u64;
    // per cent of the points that do nothing, and the symbols that other procedures may report
    let idle = random.between(20, 70);
    let foreign = few(random, symbols) | few(random, symbols);
    let mut nodes: Vec<_> = (0..count)
        .map(|_| {
            let kind = match random.below(10) {
                0..=5 => EVENT,
                6 => CALL,
                _ => PLAIN,
            };
            let symbols_of = if random.below(100) < idle {
                &rule.idle
            } else {
                &rule.busy
            };
            let exit = u64::from(random.once_in(24));
            Node {
                kind,
                value: match kind {
                    EVENT => random.pick(symbols_of),
                    CALL => foreign & random.some_set(symbols),
                    _ => 0,
                },
                entry: u64::from(random.once_in(128)) << random.below(states),
                exit,
                after: exit * (foreign & random.some_set(symbols)),
            }
        })
        .collect();
    nodes[first as usize].entry = 1 << random.below(states);
    nodes
}

/// A set of at most three symbols.
fn few(random: &mut Random, symbols: u64) -> u64 {
    let count = random.below(4);
    (0..count).fold(0, |set, _| set | 1 << random.below(symbols))
}

/// A row of nodes with loops in about half of it, and edges that skip forward.
struct Flow {
    nodes: u64,
    edges: BTreeSet<(u64, u64)>,
    /// The first nodes of the parts that the row is made of, each a loop or straight.
    parts: Vec<u64>,
}

impl Flow {
    fn random(random: &mut Random, nodes: u64) -> Self {
        let mut flow = Flow {
            nodes,
            edges: (1..nodes).map(|node| (node - 1, node)).collect(),
            parts: vec![0],
        };
        let (mut node, mut in_loops) = (random.between(1, 8), 0);
        while node < nodes {
            flow.parts.push(node);
            let len = random.between(3, 40).min(nodes - node);
            if 2 * in_loops <= node && len >= 3 {
                flow.add_loop(random, node, len);
                in_loops += len;
            }
            node += len;
        }
        let count = random.between(1_000 * nodes / NODES, 2_048 * nodes / NODES);
        while (flow.edges.len() as u64) < count {
            let from = random.below(nodes - 1);
            let to = from + random.between(2, 24);
            flow.edges.insert((from, to.min(nodes - 1)));
        }
        flow
    }

    /// A loop of `len` nodes from `first` on, half of the longer ones with a loop inside.
    fn add_loop(&mut self, random: &mut Random, first: u64, len: u64) {
        self.edges.insert((first + len - 1, first));
        if len >= 6 && random.once_in(2) {
            let inner = random.between(3, len - 2);
            let start = first + random.between(1, len - inner - 1);
            self.add_loop(random, start, inner);
        }
    }

    /// Numbers the nodes part by part, with the parts in any order; a part keeps its own.
    fn renumber(&mut self, random: &mut Random) {
        let ends = self.parts[1..].iter().copied().chain([self.nodes]);
        let mut parts: Vec<_> = self.parts.iter().copied().zip(ends).collect();
        random.shuffle(&mut parts);
        let mut numbers = vec![0; self.nodes as usize];
        let in_order = parts.iter().flat_map(|&(first, end)| first..end);
        for (number, node) in in_order.enumerate() {
            numbers[node as usize] = number as u64;
        }
        let number = |node: u64| numbers[node as usize];
        let edges = self.edges.iter();
        self.edges = edges
            .map(|&(from, to)| (number(from), number(to)))
            .collect();
        self.parts
            .iter_mut()
            .for_each(|first| *first = number(*first));
    }
}
