//! Small jobs by hand, and what the two readers say of one file.
use crate::memory::read;
use dapohiru::Refusal;
use dapohiru_generators::zeros::zero_filled;
use dapohiru_second::job::{spell, Job, Line, Node};
use dapohiru_second::reading;
use dapohiru_second::reading::WORK;

/// PAIR of document 01, "One listing in full".
pub const PAIR: &str = "\
J     3     3     3     2
R     0     0     1     0     0
R     1     0     1     0     2
R     2     1     1     0     2
P     0     1     0     1     0     0
P     1     1     0     0     0     0
P     2     1     2     0     1     0
F     0     1
F     1     2
";

/// What the library answers to a file, with a work buffer that is long enough.
pub fn answer(file: &[u8]) -> Result<(), Refusal> {
    let mut work = vec![170; WORK];
    read(file, &mut work)
}

/// The job that a file spells, by the second reader.
pub fn second_job(file: &[u8]) -> Job {
    reading::job(file).unwrap_or_else(|number| panic!("the second reader refuses as {number}"))
}

/// A job with one state, symbol and node, and no edge.
pub fn least() -> Job {
    Job {
        symbols: 1,
        finals: vec![0],
        next: vec![vec![0]],
        nodes: vec![Node {
            kind: 0,
            value: 0,
            entry: 1,
            exit: 0,
            after: 0,
        }],
        edges: vec![],
    }
}

/// A job with numbers of one to four digits, all kinds, entry and exit at one node, and an edge
/// from a node to itself.
pub fn rich() -> Job {
    let node = |kind, value, entry, exit, after| Node {
        kind,
        value,
        entry,
        exit,
        after,
    };
    let mut nodes = vec![
        node(2, 0, 5, 1, 0),
        node(1, 11, 0, 0, 0),
        node(2, 4095, 7, 1, 4095),
        node(0, 0, 0, 1, 1024),
        node(0, 0, 2, 0, 0),
        node(2, 2050, 0, 0, 0),
        node(3, 4095, 4, 1, 2048),
        node(3, 0, 0, 0, 0),
    ];
    nodes.extend((0..4).map(|symbol| node(1, 2 * symbol, 0, 0, 0)));
    Job {
        symbols: 12,
        finals: vec![0, 1, 0],
        next: (0..3)
            .map(|state| (0..12).map(|symbol| (state + symbol) % 3).collect())
            .collect(),
        nodes,
        edges: vec![(0, 0), (0, 11), (3, 2), (3, 10), (10, 11), (11, 0)],
    }
}

/// The small files that are damaged in every way, as lines.
pub fn small() -> [(&'static str, Vec<Line>); 3] {
    [
        ("the least job", least().lines()),
        ("PAIR", second_job(PAIR.as_bytes()).lines()),
        ("a job with all kinds", rich().lines()),
    ]
}

/// The file of these lines, with spaces before its numbers and with zeros.
pub fn spelled(lines: &[Line]) -> [Vec<u8>; 2] {
    [spell(lines), zero_filled(spell(lines))]
}

/// A job with two states, three nodes and four edges.
pub fn little() -> Job {
    let mut job = rich();
    job.symbols = 2;
    job.finals = vec![0, 1];
    job.next = vec![vec![0, 1], vec![1, 0]];
    job.nodes.truncate(3);
    job.nodes[0].entry = 2;
    job.nodes[1].value = 1;
    (job.nodes[2].value, job.nodes[2].entry, job.nodes[2].after) = (3, 0, 1);
    job.edges = vec![(0, 1), (0, 2), (1, 0), (2, 0)];
    job
}
