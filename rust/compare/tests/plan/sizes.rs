//! The library and the second implementation on jobs of many nodes.
use crate::agreement::Calls;
use dapohiru_compare::on_file::OnFile;
use dapohiru_compare::serving::Case;
use dapohiru_generators::mixed;
use dapohiru_generators::random::Random;
use dapohiru_generators::sized::{self, FULL};
use dapohiru_generators::small;
use dapohiru_generators::spread::Spread;
use dapohiru_second::serving::{Given, Service};
use dapohiru_second::walk::Walks;

#[test]
fn small_jobs_spread_over_many_nodes_agree_with_the_walks() {
    const JOBS: usize = 300;
    let mut random = Random::fixed(3);
    let mut calls = Calls::new();
    for number in 0..JOBS {
        let job = small::job(&mut random);
        let job = Spread::any(&mut random, &job).job;
        let given = Given::of(&Walks::new(&job, None));
        for service in Service::BOTH {
            let case = Case::of(service, &job).with_zeros(&mut random);
            calls.agree(format_args!("job {number}"), &given, &case);
        }
    }
    calls.counts.print(&format!("{JOBS} jobs"));
}

#[test]
fn jobs_of_512_nodes_agree_with_the_walks() {
    const JOBS: usize = 12;
    let mut random = Random::fixed(4);
    let mut calls = Calls::new();
    let (mut points, mut watched) = (0, 0);
    for number in 0..JOBS {
        let job = mixed::full_job(&mut random, number, 6);
        let given = calls.agree_on(&mut random, number, &job);
        points += given.planned.points;
        watched += given.planned.watched;
    }
    calls.counts.print(&format!("{JOBS} jobs"));
    println!("{points} points, {watched} watched");
    assert!(points > 3_000 && watched * 5 > points && watched * 5 < 4 * points);
}

#[test]
fn longest_listing_fits() {
    let mut random = Random::fixed(5);
    let mut calls = Calls::new();
    let mut job = sized::job(&mut random, FULL);
    for node in &mut job.nodes {
        (node.kind, node.value) = (dapohiru_second::job::EVENT, 15);
    }
    assert_eq!(job.file().len(), dapohiru_second::reading::LONGEST);
    let given = Given::of(&Walks::new(&job, None));
    assert_eq!(given.listing.len(), 512 * 38 + 20);
    for service in Service::BOTH {
        let case = Case::of(service, &job).with_zeros(&mut random);
        calls.agree("the longest listing", &given, &case);
    }
}
