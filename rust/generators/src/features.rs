//! What of interest a small job has.
use dapohiru_second::job::{Job, CALL, REENTRANT};
use dapohiru_second::walk::{Place, Walks};

/// What of interest a job has.
#[derive(Clone, Copy, Debug, Default)]
pub struct Features {
    pub several_entries: bool,
    /// A call whose set is not empty.
    pub call: bool,
    /// An exit with an after set and an edge.
    pub exit_with_word_and_edge: bool,
    pub node_in_loop: bool,
    pub node_unreached: bool,
    /// Some walk comes in again.
    pub comes_in: bool,
    /// Some walk returns.
    pub returns: bool,
}

impl Features {
    /// What a job has.
    pub fn of(job: &Job) -> Self {
        let walks = Walks::new(job, None);
        let exit_with_edge = |&(from, _): &(u64, u64)| job.nodes[from as usize].after != 0;
        let entries = job.entries();
        let starts = entries.iter().map(|&entry| Place::Before(entry)).collect();
        let reached = places_from(&walks, starts);
        let is_call = |kind: u64| matches!(kind, CALL | REENTRANT);
        Features {
            several_entries: entries.len() > 1,
            call: job
                .nodes
                .iter()
                .any(|node| is_call(node.kind) && node.value != 0),
            exit_with_word_and_edge: job.edges.iter().any(exit_with_edge),
            node_in_loop: (0..job.nodes.len()).any(|node| {
                places_from(&walks, vec![Place::Past(node)]).contains(&Place::Before(node))
            }),
            node_unreached: (0..job.nodes.len())
                .any(|node| !reached.contains(&Place::Before(node))),
            comes_in: reached.contains(&Place::ComingIn),
            returns: reached.contains(&Place::Returning),
        }
    }
}

/// How many jobs have each feature, in the order of [`Features`].
#[derive(Debug, Default)]
pub struct FeatureCounts {
    jobs: usize,
    counts: [usize; 7],
}

impl FeatureCounts {
    /// Adds a job with these features.
    pub fn add(&mut self, of: Features) {
        let has = [
            of.several_entries,
            of.call,
            of.exit_with_word_and_edge,
            of.node_in_loop,
            of.node_unreached,
            of.comes_in,
            of.returns,
        ];
        self.jobs += 1;
        for (count, has) in self.counts.iter_mut().zip(has) {
            *count += usize::from(has);
        }
    }

    /// Says the counts.
    pub fn print(&self) {
        let counts = self.counts;
        println!("several entries, calls, exits with a word and an edge, loops, unreached nodes, walks that come in again, walks that return: {counts:?}");
    }

    /// Asks that a tenth of the jobs or more has each feature.
    pub fn are_common(&self) {
        let FeatureCounts { jobs, counts } = self;
        assert!(counts.iter().all(|count| count * 10 >= *jobs), "{counts:?}");
    }
}

/// The places to which walks lead from these.
fn places_from(walks: &Walks, mut places: Vec<Place>) -> Vec<Place> {
    let mut looked_at = 0;
    while looked_at < places.len() {
        for step in walks.moves(places[looked_at]) {
            if !places.contains(&step.to) {
                places.push(step.to);
            }
        }
        looked_at += 1;
    }
    places
}
