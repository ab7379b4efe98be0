//! The states of a rule and what leads from one to another, as Graphviz reads it.
use crate::automaton::Automaton;
use crate::drawing::quoted;
use crate::names::Names;

/// The graph of a rule, with names where there are any: a circle for each state, a double one where it is final,
/// and an arrow for all symbols that lead from one state to another.
pub fn drawn(automaton: &Automaton, names: &Names) -> String {
    let mut text =
        "digraph rule {\n  rankdir=LR;\n  node [fontname=\"Helvetica\", shape=circle];\n  \
                    edge [fontname=\"Helvetica\"];\n"
            .to_string();
    let states = 0..automaton.next.len();
    for state in states.clone() {
        // the name stands below the number
        let label = quoted(&names.state(state)).replacen(' ', "\\n", 1);
        let look = match automaton.is_final(state) {
            true => ", shape=doublecircle",
            false => "",
        };
        text += &format!("  q{state} [label=\"{label}\"{look}];\n");
    }
    for (from, next) in automaton.next.iter().enumerate() {
        for to in states.clone() {
            let leads = |&symbol: &usize| next[symbol] == to;
            let symbols: Vec<_> = (0..next.len()).filter(leads).collect();
            if !symbols.is_empty() {
                let label = symbols_label(&symbols, names);
                text += &format!("  q{from} -> q{to} [label=\"{label}\"];\n");
            }
        }
    }
    text + "}\n"
}

/// Ascending symbols: those with a name one by one, each in a line; of the others those that follow one another as
/// a range.
fn symbols_label(symbols: &[usize], names: &Names) -> String {
    let is_named = |symbol: usize| names.name_of_symbol(symbol).is_some();
    let mut ranges: Vec<(usize, usize)> = Vec::new();
    for &symbol in symbols {
        match ranges.last_mut() {
            Some((_, last)) if *last + 1 == symbol && !is_named(*last) && !is_named(symbol) => {
                *last = symbol;
            }
            _ => ranges.push((symbol, symbol)),
        }
    }
    let words = |&(first, last): &(usize, usize)| match last - first {
        0 => quoted(&names.symbol(first)),
        1 => format!("{first}, {last}"),
        _ => format!("{first} to {last}"),
    };
    let between = match symbols.iter().any(|&symbol| is_named(symbol)) {
        true => "\\n",
        false => ", ",
    };
    ranges.iter().map(words).collect::<Vec<_>>().join(between)
}

#[cfg(test)]
mod tests {
    use super::*;

    #[test]
    fn symbols_that_follow_one_another_are_a_range() {
        let names = Names::default();
        for (symbols, label) in [
            (&[0][..], "0"),
            (&[0, 1], "0, 1"),
            (&[0, 1, 2], "0 to 2"),
            (&[0, 2, 4], "0, 2, 4"),
            (&[0, 1, 3, 4, 5, 6, 15], "0, 1, 3 to 6, 15"),
        ] {
            assert_eq!(symbols_label(symbols, &names), label);
        }
    }
}
