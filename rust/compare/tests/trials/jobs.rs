//! Jobs of files, and the large jobs of the program `trials`.
use dapohiru_generators::zeros::spaced;
use dapohiru_second::job::{Job, Node, EVENT, PLAIN};
use dapohiru_second::reading;

/// The refusal, 3 to 10, that a file deserves.
pub fn refusal(file: &[u8]) -> Option<u64> {
    reading::job(file).err()
}

/// The job that a file spells.
pub fn job_of(file: &[u8]) -> Job {
    let job = reading::job(file).expect("the file spells a job");
    assert_eq!(
        job.file(),
        spaced(file.to_vec()),
        "the job is not the one that the file spells"
    );
    job
}

/// A job whose rule counts its one symbol, round and round, with the last state final. Node 0 reports the symbol
/// and is entered in state 0, the other nodes are plain, and edge e leads from node e / 32 to node e % 32.
pub fn counter(states: u64, nodes: u64, edges: u64) -> Job {
    let node = |number: u64| Node {
        kind: if number == 0 { EVENT } else { PLAIN },
        value: 0,
        entry: u64::from(number == 0),
        exit: 0,
        after: 0,
    };
    Job {
        symbols: 1,
        finals: (1..=states)
            .map(|after| u64::from(after == states))
            .collect(),
        next: (1..=states).map(|after| vec![after % states]).collect(),
        nodes: (0..nodes).map(node).collect(),
        edges: (0..edges).map(|edge| (edge / 32, edge % 32)).collect(),
    }
}
