//! A batch that begins by `start` and whose events are reported by `report` and `other` has the alarms of the job's rule
//! at every event, under planning's plan and under any faithful one.
use dapohiru::{Job, Record, Report};
use dapohiru_generators::mixed;
use dapohiru_generators::random::Random;
use dapohiru_generators::small;
use dapohiru_generators::walker::Walker;
use dapohiru_generators::zeros::filled;
use dapohiru_second::job::Job as Read;
use dapohiru_second::search::difference;
use dapohiru_second::walk::{Event, Place, Walks};

/// What walks came to.
#[derive(Default)]
struct Told {
    events: u64,
    alarms: u64,
    skipped: u64,
}

/// The monitor that has all points watched, by the job's rule.
struct Full<'a> {
    read: &'a Read,
    state: usize,
    alarms: u64,
}

impl Full<'_> {
    /// Takes an event, and says what is reported.
    fn take(&mut self, of: Event) -> Report {
        self.state = self.read.next[self.state][of.symbol()] as usize;
        match self.read.finals[self.state] {
            1 => {
                self.alarms += 1;
                Report::Alarm
            }
            _ => Report::Quiet,
        }
    }
}

impl Told {
    /// Reports an event as a service does.
    fn report(&mut self, job: &Job, of: Event, record: &mut Record) -> Report {
        self.events += 1;
        let before = *record;
        match of {
            Event::Point(node, symbol) => {
                let point = job.point(node).expect("it is a point");
                assert_eq!(point.symbol, symbol as u64);
                let report = job.report(node, record).expect("the event is taken");
                if !point.watched {
                    assert_eq!((report, *record), (Report::Quiet, before));
                    self.skipped += 1;
                }
                report
            }
            Event::Call(symbol) | Event::After(symbol) => {
                job.other(symbol as u64, record).expect("it is taken")
            }
        }
    }

    /// Takes one walk of at most so many events.
    fn walk(&mut self, random: &mut Random, job: &Job, walks: &Walks, most: u64) {
        let mut walker = Walker::begin(random, walks);
        let start = job.start(walker.entry, walker.start as u64);
        let mut record = start.expect("the walk's entry admits the state");
        let mut full = Full {
            read: walks.job,
            state: walker.start,
            alarms: 0,
        };
        for _ in 0..most {
            let Some(of) = walker.next_event(random) else {
                return;
            };
            let wanted = full.take(of);
            let report = self.report(job, of, &mut record);
            assert_eq!(report, wanted, "{of:?}");
            assert_eq!(record.alarms, full.alarms, "{of:?}");
            self.alarms += u64::from(report == Report::Alarm);
        }
    }
}

#[test]
fn reports_of_a_job_are_those_of_its_rule_on_every_walk() {
    let mut random = Random::of_this_run();
    let mut told = Told::default();
    for _ in 0..1_000 {
        let read = mixed::job(&mut random);
        let walks = Walks::new(&read, None);
        let job = Job::new(&filled(&mut random, read.file())).expect("the file is a job");
        for _ in 0..4 {
            told.walk(&mut random, &job, &walks, 300);
        }
    }
    let Told {
        events,
        alarms,
        skipped,
    } = told;
    println!("{events} events, {alarms} alarms, {skipped} skipped");
    assert!(events > 200_000 && alarms > 10_000 && skipped > 10_000);
}

#[test]
fn reports_under_a_given_faithful_plan_are_those_of_its_rule_on_every_walk() {
    let mut random = Random::of_this_run();
    let mut told = Told::default();
    for _ in 0..200 {
        let read = small::job(&mut random);
        let walks = Walks::new(&read, None);
        for plan in small::plans(&mut random, &read) {
            if let Ok(job) = Job::with_plan(&read.file(), &plan) {
                told.walk(&mut random, &job, &walks, 100);
            }
        }
    }
    println!("{} events, {} skipped", told.events, told.skipped);
    assert!(told.events > 20_000 && told.skipped > 1_000 && told.alarms > 1_000);
}

#[test]
fn walk_that_shows_a_difference_alarms_under_a_job_as_under_its_rule() {
    // the walk that needs a watched point, with it watched
    let mut random = Random::of_this_run();
    let (mut told, mut shown) = (Told::default(), 0);
    for _ in 0..400 {
        let read = small::job(&mut random);
        let walks = Walks::new(&read, None);
        let job = Job::new(&read.file()).expect("the file is a job");
        for point in job.points().filter(|point| point.watched) {
            let mut fewer = job.plan().to_vec();
            fewer[point.node] = 0;
            let found = difference(&walks, &fewer).expect("some walk needs it");
            let Place::Before(entry) = found.start else {
                panic!("a walk begins at {:?}", found.start);
            };
            let state = found.states.0;
            let mut record = job.start(entry, state as u64).expect("it is admitted");
            let mut full = Full {
                read: &read,
                state,
                alarms: 0,
            };
            for &of in &found.events {
                let wanted = full.take(of);
                assert_eq!(told.report(&job, of, &mut record), wanted);
            }
            assert_eq!(record.alarms, full.alarms);
            shown += 1;
        }
    }
    println!("{shown} watched points, {} events", told.events);
    assert!(shown > 100);
}
