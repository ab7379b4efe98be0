//! What leads to a node of a job, and all its edges, as they are listed.
use crate::json::Json;
use crate::names::Names;
use dapohiru::Arrivals;

/// What is listed: its lines, its fields of a document, and what is noted where there are none.
pub struct Listed {
    pub lines: Vec<String>,
    pub fields: Vec<(&'static str, Json)>,
    pub none: String,
}

impl Listed {
    /// The nodes with an edge to a node.
    pub fn into(node: usize, arrivals: &Arrivals, names: &Names) -> Self {
        let nodes = arrivals.predecessors(node).iter();
        let nodes: Vec<_> = nodes.map(|&from| usize::from(from)).collect();
        Listed {
            lines: nodes.iter().map(|&from| names.node(from)).collect(),
            fields: vec![
                ("node", Json::number(node)),
                (
                    "predecessors",
                    Json::List(nodes.into_iter().map(Json::number).collect()),
                ),
            ],
            none: format!("no edge leads to node {}", names.node(node)),
        }
    }

    /// All edges.
    pub fn all(arrivals: &Arrivals, names: &Names) -> Self {
        let edges = arrivals.edges();
        let edges: Vec<_> = edges
            .map(|(from, to)| (usize::from(from), usize::from(to)))
            .collect();
        let line = |&(from, to): &_| format!("{} to {}", names.node(from), names.node(to));
        let ends = |&(from, to): &_| {
            Json::Object(vec![("from", Json::number(from)), ("to", Json::number(to))])
        };
        Listed {
            lines: edges.iter().map(line).collect(),
            fields: vec![("edges", Json::List(edges.iter().map(ends).collect()))],
            none: "the job has no edge".to_string(),
        }
    }
}
