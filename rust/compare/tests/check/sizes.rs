//! Jobs of full size in which the last nodes, edges or rounds decide.
use dapohiru_compare::checking::{Memory, Said};
use dapohiru_compare::memory::Counts;
use dapohiru_compare::wrapper::WRAPPER;
use dapohiru_generators::large::{self, Order};
use dapohiru_generators::random::Random;
use dapohiru_generators::samples::{event, PLAIN_NODE};
use dapohiru_generators::shape::Shape;
use dapohiru_generators::small;
use dapohiru_generators::spread::Spread;
use dapohiru_generators::zeros::filled;
use dapohiru_second::job::{Job, Node};
use dapohiru_second::reading::WORK;
use dapohiru_second::search::difference;
use dapohiru_second::walk::Walks;

#[test]
fn small_jobs_spread_over_many_nodes_keep_their_verdicts() {
    const JOBS: usize = 1_200;
    let mut random = Random::of_this_run();
    let mut memory = Memory::new(WRAPPER);
    let mut counts = Counts::default();
    for number in 0..JOBS {
        let job = small::job(&mut random);
        let walks = Walks::new(&job, None);
        let spread = Spread::any(&mut random, &job);
        let file = filled(&mut random, spread.job.file());
        let mut plans = small::plans(&mut random, &job);
        plans.truncate(16);
        for plan in plans {
            let wanted = match difference(&walks, &plan) {
                None => Said::Faithful,
                Some(_) => Said::Different,
            };
            let plan = spread.plan(&mut random, &plan);
            match memory.call(&file, &plan, WORK) {
                Ok(seen) => assert_eq!(
                    seen.said, wanted,
                    "job {number}: {job:?} at {:?}",
                    spread.numbers
                ),
                Err(why) => panic!("job {number}: {why}"),
            }
            counts.add(wanted);
        }
    }
    counts.print(&format!("{JOBS} jobs"));
}

/// A ring of 512 nodes, entered at the first in state 0. Symbol 0, once in a round, counts to
/// state `last`; symbol 1, once in a round, goes from state 14 to 15, which is final.
fn ring(last: u64, backward: bool) -> (Job, usize) {
    let number = |node: u64| if backward { 511 - node } else { node };
    let mut nodes: Vec<Node> = vec![PLAIN_NODE; 512];
    let (counting, striking) = (number(511) as usize, number(300) as usize);
    nodes[counting] = event(0);
    nodes[striking] = event(1);
    nodes[number(0) as usize].entry = 1;
    let mut edges: Vec<_> = (0..512)
        .map(|node| (number(node), number((node + 1) % 512)))
        .collect();
    edges.sort();
    let job = Job {
        symbols: 2,
        finals: (0..16).map(|state| u64::from(state == 15)).collect(),
        next: (0..16)
            .map(|state| vec![(state + 1).min(last), if state == 14 { 15 } else { state }])
            .collect(),
        nodes,
        edges,
    };
    (job, striking)
}

#[test]
fn alarm_after_fourteen_rounds_of_512_nodes_is_found() {
    let mut memory = Memory::new(WRAPPER);
    for backward in [false, true] {
        for (last, wanted) in [(13, Said::Faithful), (14, Said::Different)] {
            let (job, striking) = ring(last, backward);
            let mut plan = job.all_watched();
            let seen = memory.call(&job.file(), &plan, WORK).unwrap();
            assert_eq!(seen.said, Said::Faithful);
            plan[striking] = 0;
            let seen = memory.call(&job.file(), &plan, WORK).unwrap();
            assert_eq!(seen.said, wanted, "counted to {last}, backward {backward}");
            let walks = Walks::new(&job, None);
            let found = difference(&walks, &plan);
            assert_eq!(found.is_some(), wanted == Said::Different);
            // thirteen rounds take both events, the fourteenth counts, and the next strikes
            let events = found.map_or(0, |found| found.events.len());
            assert!(events == 0 || events == 29, "{events} events");
        }
    }
}

#[test]
fn large_jobs_have_half_of_their_nodes_in_loops_and_some_nested() {
    let mut random = Random::of_this_run();
    for order in [Order::Flow, Order::Parts] {
        let mut nested = 0;
        for _ in 0..40 {
            let shape = Shape::of(&large::job(&mut random, order));
            assert!((8..=16).contains(&shape.states) && (8..=16).contains(&shape.symbols));
            assert!((1_000..=2_048).contains(&shape.edges));
            assert!((205..=307).contains(&shape.in_loops), "{shape:?}");
            assert!(
                shape.loops.iter().all(|size| (3..=40).contains(size)),
                "{shape:?}"
            );
            nested += shape.nested;
        }
        assert!(nested >= 40, "{nested} nested loops in 40 jobs");
    }
}
