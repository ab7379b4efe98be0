//! What there is no job for, and events that are not taken.
use dapohiru::{Job, JobError, NoPoint, Record, Refusal, ReportError};
use dapohiru_compare::memory::Counts;
use dapohiru_generators::damage::Damaged;
use dapohiru_generators::faults::{lengthen, possible, refused, NUMBERS};
use dapohiru_generators::mixed;
use dapohiru_generators::random::Random;
use dapohiru_generators::samples::{call, event, exit, pair, reentrant, PAIR, PLAIN_NODE};
use dapohiru_generators::small;
use dapohiru_second::job::EVENT;

/// The refusal that there is in place of a job.
fn refusal(file: &[u8]) -> Option<u64> {
    match Job::new(file) {
        Ok(_) => None,
        Err(JobError::Refused(Refusal(number))) => Some(number),
        Err(why) => panic!("{why}"),
    }
}

#[test]
fn refused_file_has_no_job_but_its_number() {
    let mut random = Random::of_this_run();
    let mut counts = Counts::default();
    for _ in 0..200 {
        let job = small::job(&mut random);
        for number in NUMBERS {
            let number = possible(&job, number);
            let file = refused(&mut random, &job, number);
            assert_eq!(refusal(&file), Some(number));
            counts.add(Some(number));
        }
        let mut file = job.file();
        lengthen(&mut random, &mut file);
        assert_eq!(refusal(&file), Some(1));
    }
    for _ in 0..3_000 {
        let damaged = Damaged::random(&mut random);
        assert_eq!(refusal(&damaged.file), damaged.unread);
        counts.add(damaged.unread);
    }
    counts.print("files");
    counts.came([None, Some(3), Some(4), Some(5), Some(6), Some(7), Some(8)]);
}

#[test]
fn node_that_is_no_point_is_told_and_takes_no_event() {
    // every kind of node, and past them
    let nodes = vec![
        event(0),
        PLAIN_NODE,
        call(1),
        reentrant(2),
        exit(event(2), 1),
    ];
    let read = PAIR.job(1, nodes, &[(0, 1), (1, 2), (2, 3), (3, 4)]);
    let mut random = Random::of_this_run();
    let mut jobs = vec![read];
    jobs.extend((0..200).map(|_| mixed::small_job(&mut random)));
    let (mut taken, mut told) = (0, 0);
    for read in &jobs {
        let job = Job::new(&read.file()).expect("the file is a job");
        let nodes = read.nodes.len();
        for node in (0..nodes + 3).chain([511, 512, 513, 1 << 32, usize::MAX]) {
            let before = Record {
                state: 0,
                alarms: 9,
            };
            let mut record = before;
            let report = job.report(node, &mut record);
            match read.nodes.get(node) {
                Some(of) if of.kind == EVENT => {
                    assert_eq!(job.point(node).map(|point| point.symbol), Ok(of.value));
                    assert!(report.is_ok(), "{report:?}");
                    taken += 1;
                }
                _ => {
                    let why = NoPoint { node, nodes };
                    assert_eq!(job.point(node), Err(why));
                    assert_eq!(report, Err(ReportError::NoPoint(why)));
                    assert_eq!(record, before);
                    told += 1;
                }
            }
        }
    }
    println!("{taken} events, {told} nodes that are no points");
    assert!(taken > 200 && told > 1_000);
}

#[test]
fn state_or_symbol_that_the_job_lacks_is_refused_and_leaves_the_record() {
    let job = Job::new(&pair().file()).expect("the file is a job");
    for state in [3, 4, 16, 256, 1 << 32, u64::MAX] {
        let before = Record { state, alarms: 1 };
        let mut record = before;
        assert_eq!(job.other(0, &mut record), Err(Refusal(15)));
        // nodes 1 and 2 are watched; of node 0 the record is not told
        for node in [1, 2] {
            let refused = Err(ReportError::Refused(Refusal(15)));
            assert_eq!(job.report(node, &mut record), refused);
        }
        assert!(job.report(0, &mut record).is_ok());
        assert_eq!(record, before);
    }
    for symbol in [3, 16, 256, 1 << 32, u64::MAX] {
        let mut record = Record::default();
        assert_eq!(job.other(symbol, &mut record), Err(Refusal(14)));
        assert_eq!(record, Record::default());
    }
}
