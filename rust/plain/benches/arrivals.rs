//! Microseconds to add an edge at 2,047 edges and to drop it at 2,048, in turn, in a graph of 512 nodes: the library's
//! calls beside a plain Rust program that makes the same tests and the same shifts. The edge stands in front, in the
//! middle and at the end of the list, in a graph whose edges are spread, in one whose edges lead to few nodes and in one
//! whose edges lead from few. Then the index of 2,048 edges made afresh, and a call that is refused. The last line is the
//! worst ratio.
//! `cargo bench --offline -p dapohiru-plain --bench arrivals` runs it.
use dapohiru::numbers::{self, ACCEPTED};
use dapohiru_generators::arrivals as graphs;
use dapohiru_generators::random::Random;
use dapohiru_plain::arrivals::{add, drop, index};
use dapohiru_second::arrivals::{Edge, Lists};
use std::hint::black_box;
use std::time::Instant;

/// Calls in one repetition.
const CALLS: usize = 200;
/// Repetitions of each program, taken in turn.
const REPETITIONS: usize = 201;
const NODES: usize = 512;
const EDGES: usize = 2_048;

/// A program on the lists: it changes them and changes them back, or leaves them; gives a number of its answers.
type Program<'a> = &'a dyn Fn(&mut Lists) -> Option<u64>;

/// The microseconds that a program takes for one call, of so many in a turn.
fn time(lists: &mut Lists, calls: usize, program: Program) -> f64 {
    let start = Instant::now();
    for _ in 0..CALLS / calls {
        black_box(program(black_box(lists)));
    }
    start.elapsed().as_secs_f64() * 1e6 / CALLS as f64
}

fn median(mut times: Vec<f64>) -> f64 {
    times.sort_by(f64::total_cmp);
    times[times.len() / 2]
}

/// Times both programs in turn, takes the medians, prints them with their ratio, and gives that.
fn timed(what: &str, lists: &Lists, calls: usize, library: Program, plain: Program) -> f64 {
    let [mut ours, mut theirs] = [lists.clone(), lists.clone()];
    assert_eq!(library(&mut ours), plain(&mut theirs), "{what}");
    assert_eq!(ours, theirs, "{what}: the lists differ");
    let (mut of_library, mut of_plain) = (Vec::new(), Vec::new());
    for _ in 0..REPETITIONS {
        of_library.push(time(&mut ours, calls, library));
        of_plain.push(time(&mut theirs, calls, plain));
    }
    let (library, plain) = (median(of_library), median(of_plain));
    let ratio = library / plain;
    println!("  {what:<46} {library:>7.2}   {plain:>10.2}   {ratio:>5.2}");
    ratio
}

/// The answer of the library.
fn counted(number: u64) -> Option<u64> {
    number.checked_sub(ACCEPTED)
}

/// Adds an edge to one fewer than the most, and drops it again.
fn in_turn(what: &str, edges: &[Edge], (from, to): Edge) -> f64 {
    let mut without = edges.to_vec();
    without.retain(|&edge| edge != (from, to));
    assert_eq!((edges.len(), without.len()), (EDGES, EDGES - 1));
    let mut lists = Lists::of(NODES, &without);
    lists.edges.extend([0, 0]);
    lists.predecessors.push(0);
    let (nodes, count) = (NODES as u64, EDGES as u64);
    let (from, to) = (u64::from(from), u64::from(to));
    timed(
        what,
        &lists,
        2,
        &|Lists {
              edges,
              predecessors,
              starts,
          }| {
            let more = numbers::add_edge(edges, predecessors, starts, nodes, count - 1, from, to);
            let less = numbers::drop_edge(edges, predecessors, starts, nodes, count, from, to);
            Some(counted(more)? * counted(less)?)
        },
        &|Lists {
              edges,
              predecessors,
              starts,
          }| {
            let more = add(edges, predecessors, starts, nodes, count - 1, from, to)?;
            let less = drop(edges, predecessors, starts, nodes, count, from, to)?;
            Some(more * less)
        },
    )
}

/// An edge that is there, in front, in the middle and at the end of the list.
fn at_places(of: &str, edges: &[Edge]) -> Vec<f64> {
    [
        ("in front", edges[0]),
        ("in the middle", edges[EDGES / 2]),
        ("at the end", edges[EDGES - 1]),
    ]
    .map(|(place, edge)| in_turn(&format!("an edge {place}, {of}"), edges, edge))
    .into()
}

fn main() {
    let mut random = Random::of_this_run();
    println!("microseconds for one call, median of {REPETITIONS} repetitions of {CALLS} calls");
    println!("{:<48} library   plain Rust   ratio", "");
    let spread = graphs::spread(&mut random, NODES, EDGES);
    let to_few = graphs::to_few(NODES);
    let from_few = graphs::from_few(NODES);
    let mut ratios = Vec::new();
    for (of, edges) in [
        ("edges spread", &spread),
        ("edges to four nodes", &to_few),
        ("edges from four nodes", &from_few),
    ] {
        ratios.extend(at_places(of, edges));
    }
    let (nodes, count) = (NODES as u64, EDGES as u64);
    let full = Lists::of(NODES, &spread);
    ratios.push(timed(
        "the index of 2,048 edges made afresh",
        &full,
        1,
        &|lists| {
            let (predecessors, starts) = (&mut lists.predecessors, &mut lists.starts);
            counted(numbers::index_edges(
                &lists.edges,
                predecessors,
                starts,
                nodes,
                count,
            ))
        },
        &|lists| {
            let (predecessors, starts) = (&mut lists.predecessors, &mut lists.starts);
            index(&lists.edges, predecessors, starts, nodes, count)
        },
    ));
    // the last start is wrong
    let mut wrong = full;
    wrong.starts[NODES] += 1;
    let (from, to) = (u64::from(spread[0].0), u64::from(spread[0].1));
    ratios.push(timed(
        "a wrong index refused",
        &wrong,
        1,
        &|Lists {
              edges,
              predecessors,
              starts,
          }| {
            counted(numbers::drop_edge(
                edges,
                predecessors,
                starts,
                nodes,
                count,
                from,
                to,
            ))
        },
        &|Lists {
              edges,
              predecessors,
              starts,
          }| drop(edges, predecessors, starts, nodes, count, from, to),
    ));
    let worst = ratios.into_iter().fold(0.0, f64::max);
    println!("  {:<46} {worst:>29.2}", "the worst ratio");
}
