//! A job under sixteen states and symbols: its own are at any places among them, and the others
//! occur on no walk.
use crate::random::Random;
use dapohiru_second::job::{members, Job, Node, CALL, EVENT, REENTRANT};

/// How many states and symbols a wide job has.
const WIDTH: usize = 16;

/// The same job with its states and symbols at other numbers, so that the same plans are faithful.
pub fn widened(random: &mut Random, job: &Job) -> Job {
    let state = numbers(random);
    let symbol = numbers(random);
    let mut next: Vec<Vec<u64>> = (0..WIDTH)
        .map(|_| (0..WIDTH).map(|_| random.below(WIDTH as u64)).collect())
        .collect();
    let mut finals: Vec<_> = (0..WIDTH).map(|_| random.below(2)).collect();
    for (from, row) in job.next.iter().enumerate() {
        finals[state[from]] = job.finals[from];
        for (on, &to) in row.iter().enumerate() {
            next[state[from]][symbol[on]] = state[to as usize] as u64;
        }
    }
    let set = |set: u64, numbers: &[usize]| {
        let numbers = members(set).map(|member| numbers[member]);
        numbers.fold(0, |set, number| set | 1 << number)
    };
    let node = |node: &Node| Node {
        value: match node.kind {
            EVENT => symbol[node.value as usize] as u64,
            CALL | REENTRANT => set(node.value, &symbol),
            _ => 0,
        },
        entry: set(node.entry, &state),
        after: set(node.after, &symbol),
        ..*node
    };
    Job {
        symbols: WIDTH as u64,
        finals,
        next,
        nodes: job.nodes.iter().map(node).collect(),
        edges: job.edges.clone(),
    }
}

/// The numbers below sixteen in any order.
fn numbers(random: &mut Random) -> Vec<usize> {
    let mut numbers: Vec<_> = (0..WIDTH).collect();
    random.shuffle(&mut numbers);
    numbers
}
