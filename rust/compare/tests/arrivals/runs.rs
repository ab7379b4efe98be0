//! Long runs of additions and removals on the same lists.
use crate::agreement::Calls;
use dapohiru::Arrivals;
use dapohiru_compare::arrivals::{lists, Kind, Run};
use dapohiru_generators::arrivals as graphs;
use dapohiru_generators::random::Random;
use dapohiru_second::arrivals::{Edge, Lists};

/// Makes a call, which agrees with the second implementation, and whose lists are those of the edges with the change.
fn take(run: &mut Run, calls: &mut Calls, step: usize, change: (Kind, Edge)) {
    let (number, lists) = calls.agree(format_args!("step {step}"), &run.case(change));
    match run.change(change) {
        true => assert_eq!(number, (1 << 48) + run.edges.len() as u64),
        false => assert_eq!((number, &lists), (22, &run.lists)),
    }
    run.lists = lists;
}

#[test]
fn long_runs_of_additions_and_removals_agree() {
    let mut random = Random::of_this_run();
    let mut calls = Calls::new();
    let limits = [
        (1, 0, 1),
        (1, 1, 0),
        (2, 4, 2),
        (3, 0, 9),
        (45, 2_025, 2_020),
        (46, 2_048, 2_047),
        (512, 0, 3),
        (512, 2_048, 2_046),
    ];
    for (nodes, count, wanted) in limits {
        let mut run = Run::begin(&mut random, nodes, count);
        for step in 0..600 {
            let change = run.any(&mut random, wanted);
            take(&mut run, &mut calls, step, change);
        }
    }
    // up and down between few edges and many
    for _ in 0..4 {
        let nodes = graphs::nodes(&mut random);
        let count = graphs::count(&mut random, nodes);
        let mut run = Run::begin(&mut random, nodes, count);
        for _ in 0..4 {
            let wanted = random.place(graphs::most(nodes) + 1);
            for step in 0..400 {
                let change = run.any(&mut random, wanted);
                take(&mut run, &mut calls, step, change);
            }
        }
    }
    calls.counts.print("runs");
    let said = [Kind::Add, Kind::Drop].map(|kind| [(kind, None), (kind, Some(22))]);
    calls.counts.came(said.concat());
}

#[test]
fn graph_is_filled_from_none_to_all_edges_and_emptied_again() {
    let mut random = Random::of_this_run();
    let mut calls = Calls::new();
    for nodes in [1, 2, 7, 20] {
        let mut run = Run::begin(&mut random, nodes, 0);
        let mut all = graphs::edges(&mut random, nodes, nodes * nodes);
        for kind in [Kind::Add, Kind::Drop] {
            random.shuffle(&mut all);
            for (step, &edge) in all.iter().enumerate() {
                take(&mut run, &mut calls, step, (kind, edge));
                // once more is refused
                take(&mut run, &mut calls, step, (kind, edge));
            }
        }
        assert!(run.edges.is_empty());
        let Lists {
            edges,
            predecessors,
            starts,
        } = &run.lists;
        assert!(edges[..2 * nodes * nodes].iter().all(|&number| number == 0));
        assert!(predecessors[..nodes * nodes]
            .iter()
            .all(|&number| number == 0));
        assert!(starts[..=nodes].iter().all(|&number| number == 0));
    }
    calls.counts.print("filled and emptied");
}

#[test]
fn addition_and_removal_of_the_same_edge_give_the_old_lists_with_free_places_zero() {
    let mut random = Random::of_this_run();
    let mut calls = Calls::new();
    for number in 0..300 {
        let nodes = graphs::nodes(&mut random);
        let count = graphs::count(&mut random, nodes).min(2_047);
        let mut run = Run::begin(&mut random, nodes, count);
        let edges: Vec<_> = run.edges.iter().copied().collect();
        let Some(edge) = graphs::absent(&mut random, nodes, &edges) else {
            continue;
        };
        let mut wanted = run.lists.clone();
        wanted.edges[2 * count..2 * count + 2].fill(0);
        wanted.predecessors[count] = 0;
        take(&mut run, &mut calls, number, (Kind::Add, edge));
        take(&mut run, &mut calls, number, (Kind::Drop, edge));
        assert_eq!(run.lists, wanted);
    }
}

#[test]
fn every_addition_at_a_node_with_many_edges_is_made_and_dropped_again() {
    let mut random = Random::of_this_run();
    let mut calls = Calls::new();
    let of = |node: u16, is_to: bool| {
        move |other: u16| match is_to {
            true => (other, node),
            false => (node, other),
        }
    };
    for is_to in [true, false] {
        // all edges to a node, or from one, one by one: from 0 to 512 of them, and back
        for node in [0, 1, 255, 256, 511] {
            let mut all: Vec<_> = (0..512).map(of(node, is_to)).collect();
            random.shuffle(&mut all);
            let mut run = Run::of(&mut random, 512, &[]);
            for kind in [Kind::Add, Kind::Drop] {
                for (step, &edge) in all.iter().enumerate() {
                    take(&mut run, &mut calls, step, (kind, edge));
                    let held = if kind == Kind::Add {
                        step + 1
                    } else {
                        511 - step
                    };
                    assert_eq!(run.edges.len(), held);
                }
            }
        }
        // four nodes with 512 each, of which one lacks one: the 512th is added at 2,047 edges, and dropped again
        let full = match is_to {
            true => graphs::to_few(512),
            false => graphs::from_few(512),
        };
        assert_eq!(full.len(), 2_048);
        for node in [0, 1, 510, 511] {
            for other in [0, 1, 2, 254, 255, 256, 257, 509, 510, 511] {
                let edge = of(node, is_to)(other);
                let mut without = full.clone();
                without.retain(|held| *held != edge);
                let mut run = Run::of(&mut random, 512, &without);
                for (step, kind) in [Kind::Add, Kind::Drop, Kind::Add].into_iter().enumerate() {
                    take(&mut run, &mut calls, step, (kind, edge));
                    assert_eq!(run.edges.len(), 2_048 - step % 2);
                }
            }
        }
    }
    calls.counts.print("many edges at a node");
}

#[test]
fn arrivals_of_the_wrapper_tell_the_edges_and_predecessors_of_a_set() {
    let mut random = Random::of_this_run();
    for _ in 0..60 {
        let nodes = graphs::nodes(&mut random);
        let count = graphs::count(&mut random, nodes);
        let mut run = Run::begin(&mut random, nodes, count);
        let edges: Vec<_> = run.edges.iter().copied().collect();
        let mut graph = Arrivals::new(nodes, &edges).expect("the edges are sound");
        for _ in 0..200 {
            let (kind, (from, to)) = run.any(&mut random, count);
            let changed = match kind {
                Kind::Add => graph.add(from.into(), to.into()),
                _ => graph.remove(from.into(), to.into()),
            };
            let is_changed = run.change((kind, (from, to)));
            assert_eq!(changed.is_ok(), is_changed);
            assert_eq!((graph.nodes(), graph.count()), (nodes, run.edges.len()));
            assert!(graph.edges().eq(run.edges.iter().copied()));
            assert_eq!(graph.edges().len(), run.edges.len());
            let into = usize::from(to);
            let leads = run.edges.iter().filter(|edge| edge.1 == to);
            assert!(graph
                .predecessors(into)
                .iter()
                .eq(leads.map(|edge| &edge.0)));
        }
        let edges: Vec<_> = run.edges.iter().copied().collect();
        assert_eq!(lists::by_arrivals(&graph), Lists::of(nodes, &edges));
        // however the edges came to be there
        assert_eq!(Arrivals::new(nodes, &edges), Ok(graph.clone()));
        for node in [nodes, nodes + 1, 513, 65_536, usize::MAX] {
            assert_eq!(graph.predecessors(node), []);
        }
    }
}
