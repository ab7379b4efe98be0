//! Where a watched walk begins: the state, and the entries before which it can stand.
use crate::args;
use crate::names::Names;
use dapohiru_second::job::{members, Job};
use std::ffi::OsStr;

/// An admitted start. Each entry admits the state.
#[derive(Clone, Debug, PartialEq, Eq)]
pub struct Start {
    pub state: usize,
    pub entries: Vec<usize>,
}

/// What `--entry` and `--state` ask for.
#[derive(Clone, Copy)]
pub struct Asked {
    pub entry: Option<usize>,
    pub state: Option<usize>,
}

impl Asked {
    /// The node and the state that are asked for, each of them one that the job has.
    pub fn of(job: &Job, entry: Option<&OsStr>, state: Option<&OsStr>) -> Result<Self, String> {
        let number = |option, asked: Option<&OsStr>, things, count| {
            let number = |asked| args::number("watch", option, asked, things, count);
            asked.map(number).transpose()
        };
        Ok(Asked {
            entry: number("--entry", entry, "nodes", job.nodes.len())?,
            state: number("--state", state, "states", job.states())?,
        })
    }

    /// Whether a record that began so may go on: nothing is asked for, or just this start. An entry alone leaves the
    /// state open.
    pub fn allows(self, start: &Start, job: &Job, names: &Names) -> bool {
        match (self.entry, self.state) {
            (None, None) => true,
            (Some(entry), None) => start.entries == [entry],
            _ => self.start(job, names).is_ok_and(|asked| asked == *start),
        }
    }

    /// The start that is asked for, if it is admitted and one state is fixed.
    pub fn start(self, job: &Job, names: &Names) -> Result<Start, String> {
        let admits = |entry: usize, state: usize| job.nodes[entry].entry >> state & 1 == 1;
        let admitted = |entry: usize| members(job.nodes[entry].entry).collect::<Vec<_>>();
        let refused = |why: String| Err(format!("watch: {why}; {}", admitted_starts(job, names)));
        match self {
            Asked {
                entry: Some(entry),
                state,
            } => match (state, &admitted(entry)[..]) {
                (_, []) => refused(format!("node {} is no entry", names.node(entry))),
                (None, &[state]) => Ok(Start::before(vec![entry], state)),
                (None, _) => refused(format!(
                    "the entry {} admits several states, so --state Q is asked for too",
                    names.node(entry)
                )),
                (Some(state), _) if admits(entry, state) => Ok(Start::before(vec![entry], state)),
                (Some(state), _) => refused(format!(
                    "the entry {} does not admit state {}",
                    names.node(entry),
                    names.state(state)
                )),
            },
            Asked {
                entry: None,
                state: Some(state),
            } => {
                let mut entries = job.entries();
                entries.retain(|&entry| admits(entry, state));
                match entries.is_empty() {
                    true => refused(format!("no entry admits state {}", names.state(state))),
                    false => Ok(Start::before(entries, state)),
                }
            }
            Asked { .. } => match job.entries()[..] {
                [entry] if admitted(entry).len() == 1 => Asked {
                    entry: Some(entry),
                    state: None,
                }
                .start(job, names),
                _ => refused(
                    "there are several admitted starts, so give --entry N, --state Q or both"
                        .to_string(),
                ),
            },
        }
    }
}

impl Start {
    fn before(entries: Vec<usize>, state: usize) -> Self {
        Start { state, entries }
    }

    /// The start in words.
    pub fn shown(&self, names: &Names) -> String {
        format!(
            "before {} in state {}",
            nodes(&self.entries, names),
            names.state(self.state)
        )
    }
}

/// Some nodes in words.
fn nodes(nodes: &[usize], names: &Names) -> String {
    let word = if nodes.len() == 1 { "node" } else { "nodes" };
    let nodes: Vec<_> = nodes.iter().map(|&node| names.node(node)).collect();
    format!("{word} {}", nodes.join(", "))
}

/// All admitted starts of a job, in words: entries that admit the same states have one line.
fn admitted_starts(job: &Job, names: &Names) -> String {
    let mut text = "the admitted starts are:".to_string();
    let mut told = Vec::new();
    let entries = job.entries();
    for &entry in &entries {
        let set = job.nodes[entry].entry;
        if told.contains(&set) {
            continue;
        }
        told.push(set);
        let alike: Vec<_> = entries
            .iter()
            .filter(|&&entry| job.nodes[entry].entry == set)
            .copied()
            .collect();
        let states: Vec<_> = members(set).map(|state| names.state(state)).collect();
        let word = if states.len() == 1 { "state" } else { "states" };
        let (alike, states) = (nodes(&alike, names), states.join(", "));
        text += &format!("\n  before {alike} in {word} {states}");
    }
    text
}
