//! The library and the second implementation on the same calls.
use dapohiru_compare::arrivals::{cases, Case, Kind, Said};
use dapohiru_compare::compared::{self, samples_agree, Compared};
use dapohiru_compare::library::{CALLS, GUARDED};
use dapohiru_generators::arrivals as graphs;
use dapohiru_generators::random::Random;
use dapohiru_plain::arrivals as plain;
use dapohiru_second::arrivals::{Asked, Lists};
use std::collections::BTreeSet;

/// Calls that the two are compared on.
pub type Calls = compared::Calls<Case>;

/// Every call, accepted and refused.
pub fn all() -> impl Iterator<Item = Said> {
    let kinds = Kind::ALL.into_iter();
    kinds.flat_map(|kind| [None, Some(22)].map(|refused| (kind, refused)))
}

#[test]
fn random_calls_agree() {
    let mut random = Random::of_this_run();
    samples_agree(1_500, all(), |_| cases(&mut random));
}

#[test]
fn graphs_of_every_count_of_nodes_agree() {
    let mut random = Random::of_this_run();
    let mut calls = Calls::new();
    let mut counts = BTreeSet::new();
    for nodes in 1..=512 {
        let most = graphs::most(nodes);
        let any = random.place(most + 1);
        for count in [0, 1.min(most), any, most - 1, most] {
            let edges = graphs::edges(&mut random, nodes, count);
            counts.insert(count);
            let absent = graphs::absent(&mut random, nodes, &edges);
            let present = graphs::present(&mut random, &edges);
            let asked = [
                absent.map(|edge| Kind::Add.of(edge)),
                present.map(|edge| Kind::Drop.of(edge)),
                Some(Asked::Index),
            ];
            for asked in asked.into_iter().flatten() {
                let case = Case::of(nodes, &edges, asked).extended(&mut random);
                let (number, _) = calls.agree(format_args!("N {nodes}, {count} edges"), &case);
                let is_full = matches!(asked, Asked::Add(..)) && count == 2_048;
                assert_eq!(number == 22, is_full, "{}", case.words());
            }
        }
    }
    calls.counts.print("all counts of nodes");
    assert!(counts.len() > 200 && counts.contains(&2_047) && counts.contains(&2_048));
}

#[test]
fn plain_program_of_the_benchmark_agrees() {
    let mut random = Random::of_this_run();
    for _ in 0..1_500 {
        for case in cases(&mut random) {
            let (number, lists) = case.seen(&mut CALLS.clone()).unwrap();
            let mut theirs = case.lists.clone();
            let Lists {
                edges,
                predecessors,
                starts,
            } = &mut theirs;
            let (nodes, count) = (case.call.nodes, case.call.count);
            let answer = match case.call.asked {
                Asked::Add(from, to) => {
                    plain::add(edges, predecessors, starts, nodes, count, from, to)
                }
                Asked::Drop(from, to) => {
                    plain::drop(edges, predecessors, starts, nodes, count, from, to)
                }
                Asked::Index => plain::index(edges, predecessors, starts, nodes, count),
            };
            let answer = answer.map_or(22, |count| (1 << 48) + count);
            assert_eq!((answer, theirs), (number, lists), "{}", case.words());
        }
    }
}

#[test]
fn what_stands_past_the_lists_changes_no_answer_and_stays() {
    let mut random = Random::of_this_run();
    for _ in 0..300 {
        let nodes = graphs::nodes(&mut random);
        let count = graphs::count(&mut random, nodes);
        let edges = graphs::edges(&mut random, nodes, count);
        let edge = graphs::any(&mut random, nodes);
        for kind in Kind::ALL {
            let short = Case::of(nodes, &edges, kind.of(edge));
            let (number, left) = short.seen(&mut GUARDED.clone()).unwrap();
            let mut long = short.clone();
            graphs::extend(&mut random, &mut long.lists, nodes, 9);
            let (with_more, with_past) = long.seen(&mut GUARDED.clone()).unwrap();
            assert_eq!(with_more, number);
            for (list, (left, before)) in with_past
                .all()
                .into_iter()
                .zip(left.all().into_iter().zip(long.lists.all()))
            {
                assert_eq!(list[..left.len()], left[..]);
                assert_eq!(list[left.len()..], before[left.len()..]);
            }
        }
    }
}
