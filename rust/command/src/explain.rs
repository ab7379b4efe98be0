//! A listing as a table with headings, and in words.
use crate::listing::{Found, Listing, Totals};
use crate::names::Names;
use crate::table::{table, Side, LEAST};
use dapohiru_second::job::Job;

/// A listing of a job, in a table and in words.
pub fn explained(listing: &Listing, job: &Job, names: &Names) -> String {
    let headings = ["node", "symbol", "before", "classes", "nop", "plan"];
    let mut rows = vec![headings.map(str::to_string)];
    rows.extend(listing.points.iter().map(|found| row(found, names)));
    let words = listing.points.iter();
    let words: String = words
        .map(|found| words_of(found, job.states(), names))
        .collect();
    let (name, left) = (Side::Name(LEAST), Side::Left);
    let sides = [names.node_side(), name, name, Side::Right, left, left];
    table(sides, &rows) + &totals(&listing.totals) + &ways_back(job, names) + &words
}

/// The totals in words.
fn totals(totals: &Totals) -> String {
    let Totals {
        points,
        watched,
        passes,
    } = totals;
    let nodes = if *points == 1 { "node" } else { "nodes" };
    let passed = if *passes == 1 { "pass" } else { "passes" };
    format!("{points} event {nodes}, {watched} of them watched, {passes} {passed}\n")
}

/// What calls that may come back in are for, if the job has any.
fn ways_back(job: &Job, names: &Names) -> String {
    let calls = job.reentrant();
    if calls.is_empty() {
        return String::new();
    }
    let is_exit = |&node: &usize| job.nodes[node].exit == 1;
    let exits = (0..job.nodes.len()).filter(is_exit).collect::<Vec<_>>();
    let nodes = |numbers: &[usize]| nodes(numbers, names);
    let (calls, entries) = (nodes(&calls), nodes(&job.entries()));
    let returns = match exits.is_empty() {
        true => "No node is an exit, so no walk returns.".to_string(),
        false => format!(
            "After the after word of an exit ({}) it may return to {calls}, and the word of that call follows again.",
            nodes(&exits)
        ),
    };
    format!(
        "\nCalls that may come back in (re-entrant calls): {calls}.\n  \
         After the word of such a call a walk may come in again at {entries}, in the state it has.\n  \
         {returns}\n  \
         What is said of the points counts these steps in.\n"
    )
}

/// These nodes, named.
fn nodes(numbers: &[usize], names: &Names) -> String {
    let listed: Vec<_> = numbers.iter().map(|&node| names.node(node)).collect();
    match listed.split_last() {
        Some((last, [])) => format!("node {last}"),
        Some((last, others)) => format!("nodes {} and {last}", others.join(", ")),
        None => "no node".to_string(),
    }
}

/// The row of a point.
fn row(found: &Found, names: &Names) -> [String; 6] {
    [
        names.node(found.node),
        names.symbol(found.symbol),
        names.states(found.before),
        found.classes.to_string(),
        if found.nop { "yes" } else { "no" }.to_string(),
        plan_word(found.watched).to_string(),
    ]
}

/// What was found at a point, in words.
fn words_of(found: &Found, states: usize, names: &Names) -> String {
    let arrives = match found.before.count_ones() {
        0 => "No walk arrives here.".to_string(),
        1 => format!(
            "With all points watched, walks arrive here in state {} only.",
            names.state(found.before.trailing_zeros() as usize)
        ),
        _ => format!(
            "With all points watched, walks arrive here in the states {}.",
            names.states(found.before)
        ),
    };
    let classes = match found.classes {
        _ if states == 1 => "There is one state alone.".to_string(),
        1 => format!("After it, no alarm tells one of the {states} states from another."),
        all if all == states => {
            format!("After it, later alarms tell all {states} states apart.")
        }
        some => format!(
            "After it, the {states} states fall into {some} classes; later alarms tell states of different classes apart, and no others."
        ),
    };
    let nop = match (found.before, found.nop) {
        (0, _) => "So its event changes nothing (nop).",
        (_, true) => "From each state in which walks arrive, its event raises no alarm and leads to a state of the same class (nop).",
        (_, false) => "From some state in which walks arrive, its event raises an alarm or leads to a state of another class.",
    };
    let plan = match found.watched {
        true => {
            "The plan watches it: with this point alone unwatched too, some walk has other alarms."
        }
        false => "The plan leaves it unwatched: on every walk the alarms stay the same.",
    };
    let (node, symbol) = (names.node(found.node), names.symbol(found.symbol));
    let lines = [arrives, classes, nop.to_string(), plan.to_string()];
    format!(
        "\nNode {node}, symbol {symbol}:\n  {}\n",
        lines.join("\n  ")
    )
}

/// What a plan does with a point.
pub fn plan_word(watched: bool) -> &'static str {
    match watched {
        true => "watched",
        false => "unwatched",
    }
}
