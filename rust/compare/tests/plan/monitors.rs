//! The first half of the third promise: two records on long walks, one under the plan of the library.
use dapohiru::Counts;
use dapohiru_compare::promise::walk;
use dapohiru_compare::records::Tally;
use dapohiru_compare::wrapper::{plan, WRAPPER};
use dapohiru_generators::large::{self, Order};
use dapohiru_generators::mixed;
use dapohiru_generators::random::Random;
use dapohiru_generators::reentry::Reentry;
use dapohiru_generators::zeros::filled;
use dapohiru_second::job::Job;
use dapohiru_second::reading::WORK;
use dapohiru_second::walk::Walks;

/// The plan that the library writes for a job, whose file has any zeros.
pub fn plan_of(random: &mut Random, job: &Job) -> Vec<u8> {
    counted_plan_of(random, job).1
}

/// The same plan, with what the library counts.
pub fn counted_plan_of(random: &mut Random, job: &Job) -> (Counts, Vec<u8>) {
    let mut bytes = vec![7; 512];
    let file = filled(random, job.file());
    let counts = plan(&file, &mut [0; WORK], &mut bytes).expect("the job is planned");
    bytes.truncate(job.nodes.len());
    (counts, bytes)
}

/// What walks of many jobs came to.
#[derive(Default)]
struct Totals {
    jobs: u64,
    walks: u64,
    tally: Tally,
    /// Jobs with both alarms and skipped events.
    both: u64,
    /// Jobs with alarms, skipped events and walks that come in again.
    coming_in: u64,
    /// Jobs with alarms, skipped events and walks that return.
    returning: u64,
    /// Jobs with a walk on which the reports differ.
    different: u64,
    longest: u64,
    rounds: u64,
}

impl Totals {
    /// Takes walks of one job.
    fn walk(&mut self, random: &mut Random, job: &Job, plan: &[u8], walks: u64, most: u64) {
        let of_job = Walks::new(job, None);
        let (mut tally, mut different) = (Tally::default(), false);
        let (mut came_in, mut returned) = (0, 0);
        for _ in 0..walks {
            let walked = walk(WRAPPER, random, &of_job, plan, most).unwrap();
            different |= walked.differs;
            tally.add(walked.tally);
            came_in += walked.came_in;
            returned += walked.returned;
            self.longest = self.longest.max(walked.tally.events);
            self.rounds = self.rounds.max(walked.rounds);
        }
        self.jobs += 1;
        self.walks += walks;
        self.tally.add(tally);
        let both = tally.alarms > 0 && tally.skipped > 0;
        self.both += u64::from(both);
        self.coming_in += u64::from(both && came_in > 0);
        self.returning += u64::from(both && returned > 0);
        self.different += u64::from(different);
    }

    /// Says what the walks came to.
    fn print(&self, what: &str) {
        let Tally {
            events,
            alarms,
            skipped,
            refused,
            saturated,
        } = self.tally;
        let refused: u64 = refused.iter().sum();
        println!(
            "{what}: {} jobs, {} walks, {events} events, {alarms} alarms, {skipped} skipped, {refused} refused calls, {saturated} alarms at the highest total; the longest walk has {} events, the most rounds are {}; {} jobs have alarms and skipped events, {} of them walks that come in again and {} walks that return; {} differ",
            self.jobs, self.walks, self.longest, self.rounds, self.both, self.coming_in, self.returning, self.different
        );
    }

    /// Asks that reports and totals were the same at every event, and that a tenth of the jobs had both
    /// alarms and skipped events.
    fn same_alarms(&self) {
        let Totals { both, jobs, .. } = self;
        assert_eq!(self.different, 0, "the reports differ");
        assert!(self.tally.refused.iter().all(|&count| count > 0));
        assert!(both * 10 >= *jobs, "{both} of {jobs}");
    }

    /// Asks that a tenth of the jobs had alarms, skipped events and walks that come in again, and a tenth walks
    /// that return.
    fn come_back(&self) {
        for count in [self.coming_in, self.returning] {
            assert!(count * 10 >= self.jobs, "{count} of {}", self.jobs);
        }
    }
}

#[test]
fn two_records_alarm_alike_on_many_walks_of_small_jobs() {
    let mut random = Random::fixed(13);
    let mut totals = Totals::default();
    for _ in 0..4_000 {
        let job = mixed::job(&mut random);
        let plan = plan_of(&mut random, &job);
        totals.walk(&mut random, &job, &plan, 4, 300);
    }
    totals.print("small jobs");
    totals.same_alarms();
    totals.come_back();
    assert!(totals.tally.saturated > 0, "no total reached 2^64-1");
    assert!(totals.tally.events > 1_000_000);
}

#[test]
fn two_records_alarm_alike_on_walks_of_a_million_events() {
    const MOST: u64 = 1_000_000;
    const JOBS: u64 = 8;
    let mut random = Random::fixed(14);
    let mut totals = Totals::default();
    for _ in 0..20_000 {
        if totals.jobs == JOBS {
            break;
        }
        let job = mixed::job(&mut random);
        let plan = plan_of(&mut random, &job);
        // jobs whose loops have alarms and points that are skipped
        let mut first = Totals::default();
        first.walk(&mut random, &job, &plan, 1, 2_000);
        assert_eq!(first.different, 0, "the reports differ");
        if first.rounds >= 200 && first.tally.alarms >= 100 && first.tally.skipped >= 100 {
            totals.walk(&mut random, &job, &plan, 1, MOST);
        }
    }
    totals.print("long walks");
    assert_eq!(
        totals.jobs, JOBS,
        "too few jobs have loops with alarms and skipped points"
    );
    totals.same_alarms();
    assert!(totals.longest == MOST && totals.rounds > 10_000);
}

#[test]
fn two_records_alarm_alike_on_walks_of_512_nodes() {
    let mut random = Random::fixed(15);
    let mut totals = Totals::default();
    for number in 0..8 {
        let job = large::job(&mut random, Order::in_turn(number));
        let plan = plan_of(&mut random, &job);
        totals.walk(&mut random, &job, &plan, 4, 50_000);
    }
    totals.print("large jobs");
    totals.same_alarms();
    assert!(totals.tally.events > 500_000);
}

#[test]
fn two_records_alarm_alike_on_walks_that_come_in_again_and_return() {
    let mut random = Random::fixed(25);
    let mut totals = Totals::default();
    for _ in 0..3_000 {
        let job = mixed::job_with(&mut random, Reentry::Always);
        let plan = plan_of(&mut random, &job);
        totals.walk(&mut random, &job, &plan, 4, 300);
    }
    totals.print("jobs with calls that may come back in");
    totals.same_alarms();
    totals.come_back();
    assert!(totals.returning * 4 >= totals.jobs);
}

#[test]
fn with_one_needed_byte_cleared_the_two_records_differ() {
    let mut random = Random::fixed(16);
    let mut totals = Totals::default();
    for _ in 0..20_000 {
        if totals.jobs == 400 {
            break;
        }
        let job = mixed::job(&mut random);
        let mut plan = plan_of(&mut random, &job);
        let watched: Vec<_> = (0..plan.len()).filter(|&node| plan[node] == 1).collect();
        if watched.is_empty() {
            continue;
        }
        plan[random.pick(&watched)] = 0;
        totals.walk(&mut random, &job, &plan, 40, 300);
    }
    totals.print("one needed byte cleared");
    let Totals {
        jobs, different, ..
    } = totals;
    assert_eq!(jobs, 400, "too few plans have a watched point");
    // the walks are random, and some differences need one that is rare
    assert!(different * 2 >= jobs, "{different} of {jobs}");
}

#[test]
fn with_a_plan_of_zeros_the_two_records_differ() {
    let mut random = Random::fixed(20);
    let mut totals = Totals::default();
    for _ in 0..400 {
        let job = mixed::job(&mut random);
        totals.walk(&mut random, &job, &job.plan_of(&[]), 10, 300);
    }
    totals.print("plans of zeros");
    assert!(totals.different * 4 >= totals.jobs);
}
