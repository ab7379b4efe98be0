//! The calls in many threads at once answer as they do alone, and so does a job that they share.
use dapohiru::{Job as Shared, Record, Report};
use dapohiru_compare::arrivals::{Case, Kind};
use dapohiru_compare::compared::Compared;
use dapohiru_compare::library::CALLS;
use dapohiru_compare::wrapper::WRAPPER;
use dapohiru_generators::expressions;
use dapohiru_generators::random::Random;
use dapohiru_generators::rows::of_rule;
use dapohiru_generators::zeros::filled;
use dapohiru_generators::{prices, small, volumes};
use dapohiru_second::arrivals::{Asked, Call, Lists};
use dapohiru_second::job::Job;
use dapohiru_second::reading::WORK;
use dapohiru_second::rows::text;
use std::thread;

/// A job with its file, a volume file and a price file, its rule in rows, and an expression of its symbols.
struct Files {
    job: Job,
    file: Vec<u8>,
    volumes: Vec<u8>,
    prices: Vec<u8>,
    rows: Vec<u8>,
    expression: Vec<u8>,
}

/// The answers of all calls for one job, with what they write.
fn answers(files: &Files, work: &mut [u8]) -> (Vec<u64>, Vec<u8>) {
    let Files {
        job,
        file,
        volumes,
        prices,
        rows,
        expression,
    } = files;
    let (mut plan, mut listing) = (vec![7; 512], vec![7; 32_768]);
    let [mut rule, mut made, mut expressed] = [[7; 256]; 3];
    let (states, symbols, finals) = (job.states() as u64, job.symbols, job.final_set());
    let mut numbers = vec![
        (WRAPPER.plan)(file, work, &mut plan),
        (WRAPPER.list)(file, work, &mut listing),
        (WRAPPER.check)(file, &job.plan_of(&[]), work),
        (WRAPPER.price)(file, &job.all_watched(), volumes),
        (WRAPPER.price_by)(file, &job.all_watched(), volumes, prices),
        (WRAPPER.rule)(file, work, &mut rule),
        (WRAPPER.rule)(file, work, &mut [7; 255]),
        (WRAPPER.rows)(rows, states, symbols, finals, &mut made),
        (WRAPPER.rows)(&rows[32..], states, symbols, finals, &mut [7; 256]),
        (WRAPPER.expression)(expression, symbols, &mut expressed),
        (WRAPPER.expression)(&expression[1..], symbols, &mut [7; 256]),
    ];
    let (number, lists) = on_edges(job);
    numbers.push(number);
    assert_eq!(made, rule);
    let mut record = [0; 16];
    for event in 0..200 {
        let symbol = event % (symbols + 1);
        numbers.push((WRAPPER.event)(
            &rule,
            states,
            symbols,
            finals,
            symbol,
            &mut record,
        ));
    }
    let written = [&plan[..], &listing, &rule, &expressed, &record, &lists];
    (numbers, written.concat())
}

/// The edges of a job indexed, dropped and added again, each by the C call: the sum of the answers, and the bytes of the
/// lists that are left.
fn on_edges(job: &Job) -> (u64, Vec<u8>) {
    let nodes = job.nodes.len();
    let edges: Vec<_> = job
        .edges
        .iter()
        .map(|&(from, to)| (from as u16, to as u16))
        .collect();
    let mut lists = Lists::of(nodes, &edges);
    let mut sum = 0;
    let asked = [Kind::Index, Kind::Drop, Kind::Add];
    let all = edges
        .iter()
        .flat_map(|&edge| asked.map(|kind| kind.of(edge)));
    for asked in all {
        let count = edges.len() - usize::from(matches!(asked, Asked::Add(..)));
        let call = Call {
            asked,
            nodes: nodes as u64,
            count: count as u64,
        };
        let case = Case { call, lists };
        let (number, left) = case.seen(&mut CALLS.clone()).expect("it is made");
        (sum, lists) = (sum + number % (1 << 48), left);
    }
    let numbers = lists.all().into_iter().flatten();
    (
        sum,
        numbers.flat_map(|number| number.to_le_bytes()).collect(),
    )
}

#[test]
fn many_threads_get_the_answers_that_one_gets() {
    let mut random = Random::fixed(21);
    let jobs: Vec<_> = (0..300)
        .map(|_| {
            let job = small::job(&mut random);
            Files {
                file: filled(&mut random, job.file()),
                volumes: volumes::any(&mut random, job.nodes.len()),
                prices: prices::any(&mut random),
                rows: filled(&mut random, text(&of_rule(&job).1)),
                expression: expressions::sound(&mut random, job.symbols),
                job,
            }
        })
        .collect();
    let alone: Vec<_> = jobs
        .iter()
        .map(|job| answers(job, &mut [0; WORK]))
        .collect();
    thread::scope(|scope| {
        for thread in 0..8 {
            let (jobs, alone) = (&jobs, &alone);
            scope.spawn(move || {
                let mut work = vec![thread as u8; WORK];
                // each thread begins at another job
                for place in (0..jobs.len()).map(|k| (k + 37 * thread) % jobs.len()) {
                    assert!(
                        answers(&jobs[place], &mut work) == alone[place],
                        "job {place} in thread {thread}"
                    );
                }
            });
        }
    });
}

/// The reports of a batch that has its events in this order, and its record afterwards.
fn reports(job: &Shared, events: &[(bool, u64)]) -> (Vec<Report>, Record) {
    let entry = job.entries()[0];
    let state = entry.states().next().expect("an entry admits a state");
    let mut record = job.start(entry.node, state).expect("it is admitted");
    let points: Vec<_> = job.points().collect();
    let mut report = |&(at_point, number): &(bool, u64)| {
        let point = points.get(number as usize % points.len().max(1));
        match point {
            Some(point) if at_point => job.report(point.node, &mut record).expect("it is taken"),
            _ => {
                let symbol = number % job.rule().symbols;
                job.other(symbol, &mut record).expect("it is taken")
            }
        }
    };
    let reports = events.iter().map(&mut report).collect();
    (reports, record)
}

#[test]
fn one_job_serves_many_threads_each_with_its_own_records() {
    let mut random = Random::fixed(27);
    for number in 0..40 {
        let job = Shared::new(&small::job(&mut random).file()).expect("the file is a job");
        let batches: Vec<Vec<_>> = (0..8)
            .map(|_| {
                (0..500)
                    .map(|_| (random.once_in(2), random.number()))
                    .collect()
            })
            .collect();
        let alone: Vec<_> = batches.iter().map(|batch| reports(&job, batch)).collect();
        thread::scope(|scope| {
            for (batch, alone) in batches.iter().zip(&alone) {
                let job = &job;
                scope.spawn(move || assert_eq!(&reports(job, batch), alone, "job {number}"));
            }
        });
    }
}
