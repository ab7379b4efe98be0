//! What a job holds, beside the second reader and the calls.
use dapohiru::{Entry, Job, Point};
use dapohiru_compare::ruling::taken;
use dapohiru_compare::wrapper::{plan, WRAPPER};
use dapohiru_generators::mixed;
use dapohiru_generators::random::Random;
use dapohiru_generators::samples::{in_loop, one_seal, pair, sixteen, turn, two_writes};
use dapohiru_generators::sized::{self, Sizes};
use dapohiru_generators::zeros::filled;
use dapohiru_second::job::{members, Job as Read};
use dapohiru_second::reading::WORK;

/// Asks that a job holds what its file spells and what the calls say of it.
fn holds(job: &Job, read: &Read, file: &[u8]) {
    let mut bytes = [7; 512];
    let counts = plan(file, &mut [0; WORK], &mut bytes).expect("the job is planned");
    let nodes = read.nodes.len();
    assert_eq!(job.counts(), counts);
    assert_eq!((job.nodes(), job.plan()), (nodes, &bytes[..nodes]));
    assert_eq!(Ok(job.rule()), taken(WRAPPER, file).as_ref());

    let points: Vec<_> = job.points().collect();
    let point = |node: usize| Point {
        node,
        symbol: read.nodes[node].value,
        watched: bytes[node] == 1,
    };
    let wanted: Vec<_> = read.points().into_iter().map(point).collect();
    assert_eq!(points, wanted);
    assert_eq!(points.len() as u64, counts.points);
    let watched = points.iter().filter(|point| point.watched).count();
    assert_eq!(watched as u64, counts.watched);

    let entry = |node: usize| Entry {
        node,
        admitted: read.nodes[node].entry,
    };
    let wanted: Vec<_> = read.entries().into_iter().map(entry).collect();
    assert_eq!(job.entries(), wanted);
    for entry in job.entries() {
        let states = members(entry.admitted).map(|state| state as u64);
        assert!(entry.states().eq(states));
    }
}

#[test]
fn job_holds_what_its_file_spells_and_the_calls_say() {
    let mut random = Random::of_this_run();
    let mut jobs = vec![
        pair(),
        in_loop(),
        turn(),
        one_seal(4),
        two_writes(),
        sixteen(),
    ];
    jobs.extend((0..600).map(|_| mixed::small_job(&mut random)));
    jobs.extend((0..400).map(|_| {
        let sizes = Sizes::random(&mut random);
        sized::job(&mut random, sizes)
    }));
    jobs.extend((0..4).map(|number| mixed::full_job(&mut random, number, 2)));
    for read in &jobs {
        let file = filled(&mut random, read.file());
        let job = Job::new(&file).expect("the file is a job");
        holds(&job, read, &file);
    }
    println!("{} jobs", jobs.len());
}

#[test]
fn start_is_admitted_exactly_where_the_entry_set_has_the_state() {
    let mut random = Random::of_this_run();
    let (mut admitted, mut refused) = (0, 0);
    for _ in 0..300 {
        let read = mixed::small_job(&mut random);
        let job = Job::new(&read.file()).expect("the file is a job");
        let nodes = (0..read.nodes.len() + 2).chain([512, usize::MAX]);
        for (node, state) in nodes.flat_map(|node| (0..18).map(move |state| (node, state))) {
            let set = read.nodes.get(node).map_or(0, |of| of.entry);
            match job.start(node, state) {
                Ok(record) => {
                    assert_eq!(set >> state & 1, 1, "{node} in {state}");
                    assert_eq!((record.state, record.alarms), (state, 0));
                    admitted += 1;
                }
                Err(why) => {
                    assert_eq!(set >> state & 1, 0, "{node} in {state}");
                    assert_eq!((why.entry, why.state, why.admitted), (node, state, set));
                    refused += 1;
                }
            }
        }
        for state in [63, 64, 65, u64::MAX] {
            assert!(job.start(read.entries()[0], state).is_err(), "{state}");
        }
    }
    println!("{admitted} starts are admitted, {refused} are not");
    assert!(admitted > 300);
}

#[test]
fn turned_down_start_and_point_are_told_in_words() {
    let job = Job::new(&turn().file()).expect("the file is a job");
    let start = |entry, state| job.start(entry, state).unwrap_err().to_string();
    assert_eq!(start(0, 2), "entry 0 does not admit state 2; it admits 0 1");
    assert_eq!(start(1, 0), "node 1 is no entry");
    assert_eq!(start(7, 0), "node 7 is no entry");
    let point = |node| job.point(node).unwrap_err().to_string();
    assert_eq!(point(3), "there is no node 3; the job has 3");
}
