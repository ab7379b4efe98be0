//! The totals that planning returns, beside those of its plan and of the listing.
use crate::monitors::counted_plan_of;
use dapohiru_compare::memory::start_of;
use dapohiru_compare::wrapper::list;
use dapohiru_generators::mixed;
use dapohiru_generators::random::Random;
use dapohiru_generators::rings;
use dapohiru_generators::samples::{event, PAIR, SEAL, WRITE};
use dapohiru_generators::spread::Spread;
use dapohiru_generators::zeros::filled;
use dapohiru_second::job::Job;
use dapohiru_second::reading::WORK;
use dapohiru_second::serving::Given;
use dapohiru_second::slip::Slip;
use dapohiru_second::walk::Walks;

/// How many points there are, and how many are watched.
type Totals = [u64; 2];

/// The totals of the nodes and plan bytes, of the W lines, and of the T line.
fn counted(job: &Job, plan: &[u8], listing: &[u8]) -> [Totals; 3] {
    let ones = plan.iter().filter(|&&byte| byte == 1).count();
    let text = std::str::from_utf8(listing).expect("a text");
    let lines = text.lines().map(str::split_whitespace);
    let mut lines: Vec<Vec<_>> = lines.map(Iterator::collect).collect();
    let last = lines.pop().expect("a last line");
    assert!(last[0] == "T" && lines.iter().all(|line| line[0] == "W"));
    let marks = lines.iter().filter(|line| line[6] == "1").count();
    [
        [job.points().len() as u64, ones as u64],
        [lines.len() as u64, marks as u64],
        [1, 2].map(|field| last[field].parse().expect("a number")),
    ]
}

/// Jobs with points, by how many stay.
#[derive(Debug, Default)]
struct Seen {
    none: u64,
    some: u64,
    all: u64,
    /// Jobs with a point that goes in a pass after the first.
    later: u64,
}

impl Seen {
    /// Asks that the library returns the totals of a job's plan and listing.
    fn add(&mut self, random: &mut Random, job: &Job) {
        let (counts, plan) = counted_plan_of(random, job);
        let file = filled(random, job.file());
        let mut listing = vec![7; 32_768];
        let len = list(&file, &mut [0; WORK], &mut listing).expect("the job is listed");
        for totals in counted(job, &plan, &listing[..len]) {
            let answer = [counts.points, counts.watched];
            assert_eq!(answer, totals, "file:\n{}", start_of(&file));
        }
        match counts.watched {
            _ if counts.points == 0 => {}
            0 => self.none += 1,
            watched if watched == counts.points => self.all += 1,
            _ => self.some += 1,
        }
        // the last pass changes nothing, and each before it something
        self.later += u64::from(counts.passes > 2);
    }
}

/// A seal and then writes, 512 nodes in a row: each write alarms, so that every point stays.
fn row_of_writes() -> Job {
    let mut nodes = vec![event(WRITE); 512];
    nodes[0] = event(SEAL);
    let edges: Vec<_> = (1..512).map(|node| (node - 1, node)).collect();
    PAIR.job(1, nodes, &edges)
}

#[test]
fn totals_of_small_jobs_are_those_of_plan_and_listing() {
    const JOBS: usize = 6_000;
    let mut random = Random::fixed(22);
    let mut seen = Seen::default();
    for _ in 0..JOBS {
        let job = mixed::small_job(&mut random);
        seen.add(&mut random, &job);
    }
    println!("{JOBS} jobs: {seen:?}");
    let Seen {
        none,
        some,
        all,
        later,
    } = seen;
    assert!(none >= 500 && some >= 200 && all >= 500 && later >= 20);
}

#[test]
fn totals_of_512_nodes_are_those_of_plan_and_listing() {
    let mut random = Random::fixed(23);
    let mut seen = Seen::default();
    for number in 0..12 {
        let job = mixed::full_job(&mut random, number, 6);
        seen.add(&mut random, &job);
    }
    for _ in 0..500 {
        let job = rings::job(&mut random);
        let job = Spread::random(&mut random, &job, 512).job;
        seen.add(&mut random, &job);
    }
    seen.add(&mut random, &row_of_writes());
    println!("{seen:?}");
    assert!(seen.none > 0 && seen.some > 0 && seen.all > 0 && seen.later > 0);
}

#[test]
fn totals_with_a_slip_are_not_those_of_plan_and_listing() {
    let mut random = Random::fixed(24);
    let slips = [
        Slip::CountsSwapped,
        Slip::EveryNodeCounted,
        Slip::ReentrantCounted,
        Slip::WatchedAfterPassOne,
        Slip::WatchedBeforeLastRemoval,
        Slip::TotalStartsFromAllNodes,
        Slip::LoweredWherePointStays,
        Slip::NotLoweredWherePointGoes,
        Slip::LoweredAtOtherNodes,
    ];
    let mut noticed = slips.map(|slip| (slip, 0));
    for _ in 0..1_000 {
        let job = mixed::small_job(&mut random);
        for (slip, noticed) in &mut noticed {
            let given = Given::of(&Walks::new(&job, Some(*slip)));
            let planned = given.planned;
            let totals = counted(&job, &planned.plan, &given.listing);
            let same = |totals: &Totals| *totals == [planned.points, planned.watched];
            *noticed += u64::from(!totals.iter().all(same));
        }
    }
    println!("1000 jobs: {noticed:?}");
    assert!(noticed.iter().all(|&(_, times)| times > 0));
}
