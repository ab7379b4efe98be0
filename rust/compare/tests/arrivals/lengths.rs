//! Lists of all lengths around what they are to hold, far longer ones, and of none.
use crate::agreement::Calls;
use dapohiru_compare::arrivals::{Case, Kind};
use dapohiru_compare::guarded::lend_longer;
use dapohiru_compare::library::CALLS;
use dapohiru_generators::arrivals as graphs;
use dapohiru_generators::random::Random;
use dapohiru_second::arrivals::{Asked, Lists};

#[test]
fn list_that_is_too_short_is_22_and_one_that_is_not_is_taken() {
    let mut random = Random::of_this_run();
    let mut calls = Calls::new();
    let graphs = [
        (1, 0),
        (1, 1),
        (2, 3),
        (5, 7),
        (45, 2_025),
        (512, 2_047),
        (512, 2_048),
    ];
    for (nodes, count) in graphs {
        let edges = graphs::edges(&mut random, nodes, count);
        for kind in Kind::ALL {
            let edge = match kind {
                Kind::Add => graphs::absent(&mut random, nodes, &edges),
                _ => graphs::present(&mut random, &edges),
            };
            let edge = edge.unwrap_or((0, 0));
            let sound = Case::of(nodes, &edges, kind.of(edge));
            let accepted = calls.agree("as long as it need be", &sound).0;
            for list in 0..3 {
                let needed = sound.lists.all()[list].len();
                let near = (0..8).flat_map(|by| [needed.saturating_sub(by), needed + by]);
                for len in near.chain([
                    0,
                    1,
                    needed / 2,
                    needed / 2 + 1,
                    2 * needed,
                    65_535,
                    65_536,
                    65_537,
                ]) {
                    let case = sound.clone().with_list(list, |_| len);
                    let name = format!("N {nodes}, {count} edges, list {list} of {len}");
                    let (number, _) = calls.agree(&name, &case);
                    let wanted = if len < needed { 22 } else { accepted };
                    assert_eq!(number, wanted, "{kind:?}, {name}");
                }
            }
        }
    }
    calls.counts.print("lengths");
}

#[test]
fn list_of_any_length_past_what_it_need_be_is_taken() {
    let edges = [(0, 1), (1, 2), (2, 0)];
    let Lists {
        mut edges,
        mut predecessors,
        mut starts,
    } = Lists::of(3, &edges);
    edges.extend([0, 0]);
    predecessors.push(0);
    // an edge more and an edge less leave the lists as they were
    let both = |edges: &mut [u16], predecessors: &mut [u16], starts: &mut [u16]| {
        let more = (CALLS.add_edge)(edges, predecessors, starts, 3, 3, 1, 1);
        assert_eq!(more, (1 << 48) + 4);
        let less = (CALLS.drop_edge)(edges, predecessors, starts, 3, 4, 1, 1);
        assert_eq!(less, (1 << 48) + 3);
        let index = (CALLS.index_edges)(edges, predecessors, starts, 3, 3);
        assert_eq!(index, (1 << 48) + 3);
    };
    let lent = edges.clone();
    lend_longer(&lent, 8, |edges| {
        both(edges, &mut predecessors, &mut starts)
    });
    let lent = predecessors.clone();
    lend_longer(&lent, 8, |predecessors| {
        both(&mut edges, predecessors, &mut starts)
    });
    let lent = starts.clone();
    lend_longer(&lent, 8, |starts| {
        both(&mut edges, &mut predecessors, starts)
    });
}

#[test]
fn empty_lists_are_lent_too() {
    let mut calls = Calls::new();
    for asked in [Asked::Add(0, 0), Asked::Drop(0, 0), Asked::Index] {
        for empty in 1..8_usize {
            let mut case = Case::of(1, &[(0, 0)], asked);
            for (place, list) in case.lists.all_mut().into_iter().enumerate() {
                if empty >> place & 1 == 1 {
                    list.clear();
                }
            }
            assert_eq!(calls.agree("an empty list", &case).0, 22);
            // no edge is in no list
            case.call.count = 0;
            case.lists.starts = vec![0, 0];
            let (number, _) = calls.agree("no edge", &case);
            let is_index = asked == Asked::Index;
            assert_eq!(number == 1 << 48, is_index, "{asked:?}, {empty}");
        }
    }
}
