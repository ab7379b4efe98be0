//! The place of a job file's first fault, and what is expected there, in words: the second reader says
//! where it stops.
use crate::fault::{Due, Fault};
use dapohiru_second::reading::{self, Stop};

/// The fields of a J line, with their limits.
pub const SIZES: [(&str, u64, u64); 4] = [
    ("S, the number of states", 1, 16),
    ("A, the number of symbols", 1, 16),
    ("N, the number of nodes", 1, 512),
    ("E, the number of edges", 0, 2048),
];
/// The fields of a P line.
const NODE: [&str; 6] = [
    "the node",
    "the kind",
    "the value",
    "the entry set",
    "the exit mark",
    "the after set",
];
/// The second field of a P line.
const KINDS: &str = "the kind, 0 plain, 1 event, 2 call or 3 call that may come back in";
/// The fields of an F line.
const EDGE: [&str; 2] = ["the node that the edge leaves", "the node that it goes to"];

/// The first fault of a job file, if it has one.
pub fn first_fault(file: &[u8]) -> Option<Fault> {
    if file.len() > dapohiru::JOB_LEN {
        return Some(Fault {
            number: 1,
            place: None,
            found: "a longer file".to_string(),
            expected: format!("at most {} bytes", dapohiru::JOB_LEN),
        });
    }
    let stop = reading::stop(file)?;
    match stop.number {
        5 => sizes(&stop),
        6 => rule(&stop),
        7 => node(&stop),
        8 => edge(&stop),
        9 => end(&stop).end_fault(),
        10 => Some(no_entry(&stop)),
        _ => form(&stop),
    }
}

/// The line due last.
fn line<'a>(stop: &Stop<'a>) -> Due<'a> {
    Due {
        number: stop.number,
        line: stop.due,
        bytes: stop.line,
    }
}

/// The end of the file, after the lines due.
fn end<'a>(stop: &Stop<'a>) -> Due<'a> {
    Due {
        number: stop.number,
        line: stop.due + 1,
        bytes: stop.rest,
    }
}

/// The names of the fields of an R line.
fn rule_names(symbols: u64) -> Vec<String> {
    let mut names = vec!["the state".to_string(), "the final mark".to_string()];
    names.extend((0..symbols).map(|symbol| format!("the next state on symbol {symbol}")));
    names
}

/// The line due is missing, or has not its form.
fn form(stop: &Stop) -> Option<Fault> {
    let [states, symbols, nodes, _] = stop.sizes;
    let due = stop.due as u64 - 1;
    let (letter, names) = match due {
        0 => ('J', SIZES.map(|(name, ..)| name.to_string()).to_vec()),
        _ if due <= states => ('R', rule_names(symbols)),
        _ if due <= states + nodes => ('P', NODE.map(str::to_string).to_vec()),
        _ => ('F', EDGE.map(str::to_string).to_vec()),
    };
    line(stop).form_fault(letter, &names)
}

/// A number of the J line is outside its limits.
fn sizes(stop: &Stop) -> Option<Fault> {
    line(stop).first_field_fault(&stop.numbers, |field, number| {
        let (name, low, high) = SIZES[field];
        let good = (low..=high).contains(&number);
        (!good).then(|| format!("{name}, {low} to {high}"))
    })
}

/// An R line is refused.
fn rule(stop: &Stop) -> Option<Fault> {
    let [states, symbols, ..] = stop.sizes;
    let (names, last) = (rule_names(symbols), states - 1);
    // the J line comes before the R lines
    let state = stop.due as u64 - 2;
    line(stop).first_field_fault(&stop.numbers, |field, number| {
        let name = &names[field];
        let (good, expected) = match field {
            0 => (number == state, format!("{name}, {state} in this line")),
            1 => (number <= 1, format!("{name}, 0 or 1")),
            _ => (number <= last, format!("{name}, 0 to {last}")),
        };
        (!good).then_some(expected)
    })
}

/// The highest number of a set of so many members, and what it is.
fn set(name: &str, count: u64, members: &str) -> (u64, String) {
    let (highest, last) = ((1 << count) - 1, count - 1);
    let expected = format!("{name}, a set of {members}, 0 to {highest} (of {members} 0 to {last})");
    (highest, expected)
}

/// The highest value of a node of this kind, and what it is.
fn value(kind: u64, symbols: u64) -> (u64, String) {
    match kind {
        0 => (0, "the value of a plain node, 0".to_string()),
        1 => {
            let last = symbols - 1;
            (last, format!("the symbol of an event node, 0 to {last}"))
        }
        3 => set("the re-entrant call's set", symbols, "symbols"),
        _ => set("the call's set", symbols, "symbols"),
    }
}

/// A P line is refused.
fn node(stop: &Stop) -> Option<Fault> {
    let [states, symbols, ..] = stop.sizes;
    let (kind, exit) = (stop.numbers[1], stop.numbers[4]);
    let node = stop.due as u64 - 2 - states;
    line(stop).first_field_fault(&stop.numbers, |field, number| {
        let (highest, expected) = match field {
            0 => (node, format!("the node, {node} in this line")),
            1 => (3, KINDS.to_string()),
            2 => value(kind, symbols),
            3 => set("the entry set", states, "states"),
            4 => (1, "the exit mark, 0 or 1".to_string()),
            _ if exit == 0 => (0, "the after set, 0 where the exit mark is 0".to_string()),
            _ => set("the after set", symbols, "symbols"),
        };
        (number > highest || (field == 0 && number != node)).then_some(expected)
    })
}

/// An F line is refused: it names a node that there is not, or does not ascend.
fn edge(stop: &Stop) -> Option<Fault> {
    let last = stop.sizes[2] - 1;
    let edge = (stop.numbers[0], stop.numbers[1]);
    if edge.0 > last || edge.1 > last {
        return line(stop).first_field_fault(&stop.numbers, |field, number| {
            (number > last).then(|| format!("{}, 0 to {last}", EDGE[field]))
        });
    }
    let (from, to) = stop.before?;
    let expected = format!(
        "an edge after {from} to {to}, since edges ascend by the first node and then by the second"
    );
    let field = usize::from(edge.0 == from);
    Some(line(stop).field_fault(field, stop.numbers[field], expected))
}

/// No node is an entry.
fn no_entry(stop: &Stop) -> Fault {
    let [states, _, nodes, _] = stop.sizes;
    let (first, last) = (states + 2, states + nodes + 1);
    Fault {
        number: 10,
        place: None,
        found: "no node with an entry set".to_string(),
        expected: format!(
            "a set of start states above 0 in columns 20 to 25 of one of the lines {first} to {last}"
        ),
    }
}
