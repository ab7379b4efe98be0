//! The flow graph of a job under a plan, as Graphviz reads it.
use crate::names::Names;
use dapohiru_second::job::{Job, Node, CALL, EVENT, REENTRANT};

/// The graph of a job under a plan, with names where there are any.
pub fn drawn(job: &Job, plan: &[u8], names: &Names) -> String {
    let mut text = "digraph job {\n  node [fontname=\"Helvetica\"];\n".to_string();
    for (number, node) in job.nodes.iter().enumerate() {
        text += &drawn_node(number, node, plan[number] == 1, names);
    }
    for (from, to) in &job.edges {
        text += &format!("  n{from} -> n{to};\n");
    }
    text + &ways_back(job) + "}\n"
}

/// How many arrows a graph has that is drawn so, those of entries, exits and ways back too. Each has a line.
pub fn arrows(graph: &str) -> usize {
    let is_arrow = |line: &&str| line.split_whitespace().nth(1) == Some("->");
    graph.lines().filter(is_arrow).count()
}

/// How walks come in again and return: arrows to two nodes of their own, and on from there.
fn ways_back(job: &Job) -> String {
    let calls = job.reentrant();
    if calls.is_empty() {
        return String::new();
    }
    let named = |letters: &str, nodes: &[usize]| -> Vec<_> {
        let names = nodes.iter().map(|node| format!("{letters}{node}"));
        names.collect()
    };
    let calls = named("n", &calls);
    let entries = named("n", &job.entries());
    let is_exit = |&node: &usize| job.nodes[node].exit == 1;
    let exits = (0..job.nodes.len()).filter(is_exit).collect::<Vec<_>>();
    let mut text = way("again", "comes in again", &calls, &entries);
    if !exits.is_empty() {
        text += &way("back", "returns", &named("exit", &exits), &calls);
    }
    text
}

/// A node with this label, with arrows from and to these.
fn way(name: &str, label: &str, from: &[String], to: &[String]) -> String {
    let mut text = format!("  {name} [label=\"{label}\", shape=plaintext];\n");
    for from in from {
        text += &format!("  {from} -> {name} [style=\"dashed\"];\n");
    }
    for to in to {
        text += &format!("  {name} -> {to} [style=\"dashed\"];\n");
    }
    text
}

/// A node with its entry and its exit.
fn drawn_node(number: usize, node: &Node, watched: bool, names: &Names) -> String {
    let named = quoted(&names.node(number));
    let symbols = |set| quoted(&names.symbols(set));
    let symbol = || quoted(&names.symbol(node.value as usize));
    let (label, look) = match node.kind {
        EVENT if watched => (
            format!("{named}: symbol {}\\nwatched", symbol()),
            "shape=box, style=\"filled,bold\", fillcolor=\"gold\"",
        ),
        EVENT => (
            format!("{named}: symbol {}\\nunwatched", symbol()),
            "shape=box, style=\"dashed\"",
        ),
        CALL => (
            format!("{named}: call {}", symbols(node.value)),
            "shape=hexagon",
        ),
        REENTRANT => (
            format!("{named}: re-entrant call {}", symbols(node.value)),
            "shape=hexagon, peripheries=2",
        ),
        _ => (named, "shape=ellipse"),
    };
    let mut text = format!("  n{number} [label=\"{label}\", {look}];\n");
    if node.entry != 0 {
        let states = quoted(&names.states(node.entry));
        text += &format!(
            "  entry{number} [label=\"entry {states}\", shape=plaintext];\n  entry{number} -> n{number};\n"
        );
    }
    if node.exit == 1 {
        let after = match node.after {
            0 => String::new(),
            after => format!("\\nafter {}", symbols(after)),
        };
        text += &format!(
            "  exit{number} [label=\"exit{after}\", shape=plaintext];\n  n{number} -> exit{number};\n"
        );
    }
    text
}

/// Text within the quotes of a label, where Graphviz reads backslashes and ampersands too.
pub fn quoted(text: &str) -> String {
    let text = text.replace('\\', "\\\\").replace('"', "\\\"");
    text.replace('&', "&amp;")
}

#[cfg(test)]
mod tests {
    use super::*;

    #[test]
    fn arrows_are_those_that_are_drawn() {
        let pair = include_str!("../tests/expected/pair.dot");
        // two edges, an entry and an exit
        assert_eq!(arrows(pair), 4);
        // four edges, an entry, an exit, and two ways with two arrows each
        assert_eq!(arrows(include_str!("../tests/expected/regroup.dot")), 10);
        // a name is no arrow
        assert_eq!(arrows(&pair.replace("0: symbol", "n0 -> n1: symbol")), 4);
        assert_eq!(arrows(&pair.replace("0: symbol", " -> ")), 4);
    }

    #[test]
    fn labels_hold_any_text() {
        assert_eq!(quoted("1 seal"), "1 seal");
        assert_eq!(quoted("a\\n\"];b&#10;"), "a\\\\n\\\"];b&amp;#10;");
    }
}
