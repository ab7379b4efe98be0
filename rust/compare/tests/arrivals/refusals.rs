//! Every cause of the refusal by itself, small lists of all numbers, and small graphs with every change.
use crate::agreement::{self, Calls};
use dapohiru::{Arrivals, Refusal};
use dapohiru_compare::arrivals::{Case, Kind};
use dapohiru_compare::compared::Compared;
use dapohiru_compare::library::CALLS;
use dapohiru_compare::memory::Counts;
use dapohiru_generators::arrivals as graphs;
use dapohiru_generators::random::Random;
use dapohiru_second::arrivals::{Asked, Call, Edge, Lists};

/// Numbers that lose their high bits, or that a sign or a sum could be made of.
const HIGH: [u64; 14] = [
    1 << 16,
    2 << 16,
    (1 << 16) + 512,
    1 << 17,
    1 << 31,
    1 << 32,
    (1 << 32) + (1 << 16),
    1 << 33,
    1 << 47,
    1 << 48,
    1 << 62,
    1 << 63,
    (1 << 63) + (1 << 16),
    !0xffff,
];

/// Asks that a call is refused and leaves the lists.
#[track_caller]
fn refused(calls: &mut Calls, why: &str, case: &Case) {
    let (number, lists) = calls.agree(why, case);
    assert_eq!(number, 22, "{why}: {}", case.words());
    assert_eq!(lists, case.lists, "{why}: {}", case.words());
}

#[test]
fn number_is_never_taken_for_its_low_bits() {
    let mut random = Random::of_this_run();
    let mut calls = Calls::new();
    for (nodes, count) in [(1, 0), (1, 1), (3, 4), (20, 200), (512, 2_047)] {
        let edges = graphs::edges(&mut random, nodes, count);
        for kind in Kind::ALL {
            let edge = match kind {
                Kind::Add => graphs::absent(&mut random, nodes, &edges),
                _ => graphs::present(&mut random, &edges),
            };
            let Some(edge) = edge.or((kind == Kind::Index).then_some((0, 0))) else {
                continue;
            };
            let sound = Case::of(nodes, &edges, kind.of(edge));
            assert!(calls.agree("sound", &sound).0 > 22);
            let Call {
                asked,
                nodes,
                count,
            } = sound.call;
            let mut with = |why: &str, call: Call| {
                let lists = sound.lists.clone();
                refused(&mut calls, why, &Case { call, lists });
            };
            for high in HIGH {
                let (of_nodes, of_count) = (high + nodes, high + count);
                with(
                    "N",
                    Call {
                        nodes: of_nodes,
                        ..sound.call
                    },
                );
                with(
                    "count",
                    Call {
                        count: of_count,
                        ..sound.call
                    },
                );
                if kind != Kind::Index {
                    let from = asked.with(|from, to| (high + from, to));
                    with(
                        "from",
                        Call {
                            asked: from,
                            ..sound.call
                        },
                    );
                    let to = asked.with(|from, to| (from, high + to));
                    with(
                        "to",
                        Call {
                            asked: to,
                            ..sound.call
                        },
                    );
                }
            }
            with(
                "N",
                Call {
                    nodes: u64::MAX,
                    ..sound.call
                },
            );
            with(
                "count",
                Call {
                    count: u64::MAX,
                    ..sound.call
                },
            );
        }
    }
    calls.counts.print("high bits");
}

#[test]
fn every_end_and_count_of_nodes_at_its_limit_agrees() {
    let mut calls = Calls::new();
    for nodes in [0, 1, 2, 255, 256, 257, 510, 511, 512, 513, 514, 1_024] {
        let last = nodes as u64;
        let near = [
            0,
            1,
            last.saturating_sub(1),
            last,
            last + 1,
            255,
            256,
            511,
            512,
            513,
            65_535,
        ];
        for from in near {
            for to in near {
                for asked in [Asked::Add(from, to), Asked::Drop(from, to), Asked::Index] {
                    for edges in [&[][..], &[(0, 0)]] {
                        calls.agree(format_args!("N {nodes}"), &Case::of(nodes, edges, asked));
                    }
                }
            }
        }
    }
    calls.counts.print("limits");
    calls.counts.came(agreement::all());
}

#[test]
fn addition_to_2048_edges_is_22_and_a_drop_from_them_and_their_index_are_made() {
    let mut random = Random::of_this_run();
    let mut calls = Calls::new();
    for nodes in [46, 300, 512] {
        let edges = graphs::edges(&mut random, nodes, 2_049);
        for count in [2_046, 2_047, 2_048, 2_049] {
            let (held, others) = edges.split_at(count);
            let other = others.first().copied().unwrap_or((0, 0));
            for (kind, edge, most) in [
                (Kind::Add, other, 2_047),
                (Kind::Drop, held[0], 2_048),
                (Kind::Index, other, 2_048),
            ] {
                let case = Case::of(nodes, held, kind.of(edge)).extended(&mut random);
                match count <= most {
                    true => assert!(calls.agree("at most", &case).0 > 22),
                    false => refused(&mut calls, "too many", &case),
                }
            }
        }
    }
}

#[test]
fn every_change_of_every_small_graph_agrees() {
    let mut counts = Counts::default();
    for nodes in 1..=3_u16 {
        let all: Vec<Edge> = (0..nodes)
            .flat_map(|from| (0..nodes).map(move |to| (from, to)))
            .collect();
        for graph in 0..1 << all.len() {
            let held = |place: &usize| graph >> place & 1 == 1;
            let edges: Vec<_> = (0..all.len())
                .filter(held)
                .map(|place| all[place])
                .collect();
            for kind in Kind::ALL {
                for &edge in &all {
                    let case = Case::of(nodes.into(), &edges, kind.of(edge));
                    let compared = case.compare(&mut CALLS.clone(), None);
                    counts.agree("a change", compared, |seen| case.said(seen));
                }
            }
        }
    }
    counts.print("graphs of up to three nodes");
    counts.came(agreement::all().filter(|&said| said != (Kind::Index, Some(22))));
}

#[test]
fn all_small_lists_agree() {
    let mut counts = Counts::default();
    let mut tried = |nodes: usize, lens: [usize; 3], most: u16| {
        let digits = lens.iter().sum::<usize>() as u32;
        let base = usize::from(most) + 1;
        for number in 0..base.pow(digits) {
            let digit = |place: usize| (number / base.pow(place as u32) % base) as u16;
            let mut place = 0;
            let lists = lens.map(|len| {
                place += len;
                (place - len..place).map(digit).collect::<Vec<_>>()
            });
            let [edges, predecessors, starts] = lists;
            let count = predecessors.len() as u64;
            let lists = Lists {
                edges: [&edges[..], &[0, 0]].concat(),
                predecessors: [&predecessors[..], &[0]].concat(),
                starts,
            };
            let last = nodes as u64 - 1;
            for asked in [Asked::Add(0, last), Asked::Drop(last, 0), Asked::Index] {
                let call = Call {
                    asked,
                    nodes: nodes as u64,
                    count,
                };
                let lists = lists.clone();
                let case = Case { call, lists };
                let compared = case.compare(&mut CALLS.clone(), None);
                counts.agree("small lists", compared, |seen| case.said(seen));
            }
        }
    };
    tried(1, [0, 0, 2], 3);
    tried(1, [2, 1, 2], 2);
    tried(1, [4, 2, 2], 2);
    tried(2, [0, 0, 3], 3);
    tried(2, [2, 1, 3], 2);
    tried(2, [4, 2, 3], 2);
    counts.print("small lists");
    counts.came(agreement::all());
}

#[test]
fn every_number_of_the_lists_changed_to_others_agrees_and_is_refused_by_a_change() {
    let mut random = Random::of_this_run();
    let mut calls = Calls::new();
    for (nodes, count) in [(1, 1), (2, 3), (6, 11), (40, 30), (512, 40)] {
        let edges = graphs::edges(&mut random, nodes, count);
        let absent = graphs::absent(&mut random, nodes, &edges).unwrap_or((0, 0));
        let present = graphs::present(&mut random, &edges).expect("there are edges");
        for (kind, edge) in [
            (Kind::Add, absent),
            (Kind::Drop, present),
            (Kind::Index, present),
        ] {
            let sound = Case::of(nodes, &edges, kind.of(edge));
            for (list, held) in [2 * count, count, nodes + 1].into_iter().enumerate() {
                for place in 0..held {
                    let number = sound.lists.all()[list][place];
                    let near = [
                        number.wrapping_add(1),
                        number.wrapping_sub(1),
                        0,
                        nodes as u16,
                        65_535,
                    ];
                    for other in near.into_iter().chain([8, 15].map(|bit| number ^ 1 << bit)) {
                        let mut case = sound.clone();
                        case.lists.all_mut()[list][place] = other;
                        let (answer, _) =
                            calls.agree(format_args!("list {list}, place {place}"), &case);
                        if kind != Kind::Index && other != number {
                            assert_eq!(answer, 22, "{}", case.words());
                        }
                    }
                }
            }
        }
    }
    calls.counts.print("a number changed");
}

#[test]
fn every_place_of_the_longest_lists_changed_is_refused_by_a_change() {
    let mut random = Random::of_this_run();
    let mut calls = Calls::new();
    let (nodes, count) = (512, 2_048);
    for edges in [
        graphs::spread(&mut random, nodes, count),
        graphs::to_few(nodes),
        graphs::from_few(nodes),
    ] {
        // an addition is to one edge fewer, a drop from all
        let mut fewer = edges.clone();
        let added = fewer.remove(random.place(count));
        let dropped = edges[random.place(count)];
        for (kind, edges, edge) in [(Kind::Add, &fewer, added), (Kind::Drop, &edges, dropped)] {
            let sound = Case::of(nodes, edges, kind.of(edge));
            assert!(calls.agree("sound", &sound).0 > 22);
            let count = edges.len();
            for (list, held) in [2 * count, count, nodes + 1].into_iter().enumerate() {
                for place in 0..held {
                    let number = sound.lists.all()[list][place];
                    let next = sound.lists.all()[list][(place + 1) % held];
                    let beyond = random.place(nodes) as u16;
                    for other in [number + 1, number.wrapping_sub(1), next, beyond] {
                        if other == number {
                            continue;
                        }
                        let mut case = sound.clone();
                        case.lists.all_mut()[list][place] = other;
                        let (answer, left) = case.seen(&mut CALLS.clone()).unwrap();
                        assert!(
                            answer == 22 && left == case.lists,
                            "{kind:?} {edge:?}, list {list}, place {place}: {number} as {other} is {answer:#x}"
                        );
                        // beside the second implementation, which takes longer, a few
                        if random.once_in(256) {
                            refused(&mut calls, "a place", &case);
                            case.call.asked = Asked::Index;
                            calls.agree("an index of such edges", &case);
                        }
                    }
                }
            }
        }
    }
    calls.counts.print("a number of the longest lists changed");
}

#[test]
fn wrapper_refuses_edges_that_are_none_and_more_than_2048() {
    let mut random = Random::of_this_run();
    for _ in 0..300 {
        let nodes = graphs::nodes(&mut random);
        let count = graphs::count(&mut random, nodes);
        let edges = graphs::edges(&mut random, nodes, count);
        assert!(Arrivals::new(nodes, &edges).is_ok());
        let unsound = graphs::unsound(&mut random, nodes, &edges);
        assert_eq!(Arrivals::new(nodes, &unsound), Err(Refusal(22)));
        for other in [0, 513, 65_536 + nodes, usize::MAX] {
            assert_eq!(Arrivals::new(other, &edges), Err(Refusal(22)));
        }
        let mut graph = Arrivals::new(nodes, &edges).expect("the edges are sound");
        let before = graph.clone();
        for end in [nodes, 65_536, 65_536 + nodes - 1, 1 << 32, usize::MAX] {
            for (from, to) in [(end, 0), (0, end), (end, end)] {
                assert_eq!(graph.add(from, to), Err(Refusal(22)));
                assert_eq!(graph.remove(from, to), Err(Refusal(22)));
            }
        }
        assert_eq!(graph, before);
    }
    let many = graphs::edges(&mut random, 512, 5_000);
    for count in [2_049, 4_096, 5_000] {
        assert_eq!(Arrivals::new(512, &many[..count]), Err(Refusal(22)));
    }
    let mut full = Arrivals::new(512, &many[..2_048]).expect("the edges are sound");
    let (from, to) = many[2_048];
    assert_eq!(full.add(from.into(), to.into()), Err(Refusal(22)));
    assert_eq!(full.count(), 2_048);
}
