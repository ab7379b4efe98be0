//! The trial jobs of document 01 and others, written by hand.
use dapohiru_second::job::{Job, Node, CALL, EVENT, PLAIN, REENTRANT};

/// A rule as document 01 writes it: the next states of each state, and the final states.
pub struct Rule<'a> {
    pub next: &'a [&'a [u64]],
    pub finals: &'a [usize],
}

/// PAIR's rule; the symbols are seal, reopen and write.
pub const PAIR: Rule = Rule {
    next: &[&[1, 0, 0], &[1, 0, 2], &[1, 0, 2]],
    finals: &[2],
};
pub const SEAL: u64 = 0;
pub const REOPEN: u64 = 1;
pub const WRITE: u64 = 2;

/// LOOP's rule.
pub const LOOP: Rule = Rule {
    next: &[&[1, 3], &[1, 2], &[2, 2], &[2, 4], &[4, 4]],
    finals: &[4],
};

/// TURN's rule.
pub const TURN: Rule = Rule {
    next: &[&[1, 0], &[0, 2], &[0, 2]],
    finals: &[2],
};

/// A rule that alarms when symbols 0, 1 and 2 came one after another, with any others between.
pub const LOCK: Rule = Rule {
    next: &[&[1, 0, 0], &[1, 2, 1], &[2, 2, 3], &[0, 0, 0]],
    finals: &[3],
};

/// An event node that is neither entry nor exit.
pub fn event(symbol: u64) -> Node {
    Node {
        kind: EVENT,
        value: symbol,
        ..PLAIN_NODE
    }
}

/// A call node that is neither entry nor exit.
pub fn call(set: u64) -> Node {
    Node {
        kind: CALL,
        value: set,
        ..PLAIN_NODE
    }
}

/// A call that may come back in and is neither entry nor exit.
pub fn reentrant(set: u64) -> Node {
    Node {
        kind: REENTRANT,
        ..call(set)
    }
}

/// A plain node that is neither entry nor exit.
pub const PLAIN_NODE: Node = Node {
    kind: PLAIN,
    value: 0,
    entry: 0,
    exit: 0,
    after: 0,
};

/// The node as an exit with this after set.
pub fn exit(node: Node, after: u64) -> Node {
    Node {
        exit: 1,
        after,
        ..node
    }
}

impl Rule<'_> {
    /// A job under this rule. The first node is an entry with the given set.
    pub fn job(&self, entry: u64, mut nodes: Vec<Node>, edges: &[(u64, u64)]) -> Job {
        nodes[0].entry = entry;
        let is_final = |state: usize| u64::from(self.finals.contains(&state));
        Job {
            symbols: self.next[0].len() as u64,
            finals: (0..self.next.len()).map(is_final).collect(),
            next: self.next.iter().map(|row| row.to_vec()).collect(),
            nodes,
            edges: edges.to_vec(),
        }
    }
}

/// PAIR: seal, seal, write in a row, the last an exit.
pub fn pair() -> Job {
    let nodes = vec![event(SEAL), event(SEAL), exit(event(WRITE), 0)];
    PAIR.job(1, nodes, &[(0, 1), (1, 2)])
}

/// LOOP: symbols 0 and 1 in a loop.
pub fn in_loop() -> Job {
    LOOP.job(1, vec![event(0), event(1)], &[(0, 1), (1, 0)])
}

/// TURN: symbols 0, 0 and 1 in a row, entry set 3.
pub fn turn() -> Job {
    let nodes = vec![event(0), event(0), event(1)];
    TURN.job(3, nodes, &[(0, 1), (1, 2)])
}

/// PAIR's rule with one exit node seal.
pub fn one_seal(after: u64) -> Job {
    PAIR.job(1, vec![exit(event(SEAL), after)], &[])
}

/// PAIR's rule with seal, write, write in a row.
pub fn two_writes() -> Job {
    let nodes = vec![event(SEAL), event(WRITE), event(WRITE)];
    PAIR.job(1, nodes, &[(0, 1), (1, 2)])
}

/// Points of one symbol out of sixteen, so many of them, each an entry. No edge joins them.
pub fn points(symbol: u64, nodes: usize) -> Job {
    let mut nodes = vec![event(symbol); nodes];
    nodes.iter_mut().for_each(|node| node.entry = 1);
    Job {
        symbols: 16,
        finals: vec![0],
        next: vec![vec![0; 16]],
        nodes,
        edges: vec![],
    }
}

/// A job with sixteen states and symbols: state q goes to 3 q + 5 a + 1, modulo 16, on symbol a; states 0, 3 and 15 are
/// final. Its one node reports symbol 15.
pub fn sixteen() -> Job {
    let next = |state: u64| (0..16).map(move |symbol| (3 * state + 5 * symbol + 1) % 16);
    let mut node = event(15);
    node.entry = 1;
    Job {
        symbols: 16,
        finals: (0..16)
            .map(|state| u64::from([0, 3, 15].contains(&state)))
            .collect(),
        next: (0..16).map(|state| next(state).collect()).collect(),
        nodes: vec![node],
        edges: vec![],
    }
}
