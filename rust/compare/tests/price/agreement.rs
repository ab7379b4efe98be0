//! The library and the second implementation on the same calls.
use dapohiru_compare::checking;
use dapohiru_compare::memory::Counts;
use dapohiru_compare::pricing::{cases, refused, By, Case, Memory};
use dapohiru_compare::wrapper::WRAPPER;
use dapohiru_generators::damage::Damaged;
use dapohiru_generators::mixed;
use dapohiru_generators::random::Random;
use dapohiru_generators::sized::{self, Sizes, FULL};
use dapohiru_generators::spread::Spread;
use dapohiru_generators::{numbered, prices, small, volumes};
use dapohiru_plain::price::{price, price_by};
use dapohiru_plain::read::Decoded;
use dapohiru_second::numbered::PRICES;
use dapohiru_second::pricing::Answer;
use std::collections::BTreeSet;
use std::fmt::Display;

/// Calls that are compared, with counts of their refusals; a price is none.
pub struct Calls {
    memory: Memory,
    pub counts: Counts<Option<u64>>,
}

impl Calls {
    /// No call so far.
    pub fn new() -> Self {
        Calls {
            memory: Memory::new(WRAPPER),
            counts: Counts::default(),
        }
    }

    /// Asks that the two answer alike, and that the house table's file gets the answer of the house table; gives the
    /// answer.
    #[track_caller]
    pub fn agree(&mut self, name: impl Display, case: &Case) -> Answer {
        let compared = case.compare(&mut self.memory, None);
        let answer = self
            .counts
            .agree(&name, compared, |&answer| refused(answer));
        if case.prices.is_none() {
            let case = case.clone().by(prices::house());
            let by_file = case.answer(&mut self.memory);
            assert_eq!(by_file, Ok(answer), "{name}: {}", case.words());
        }
        answer
    }
}

/// A price and every refusal that pricing has.
pub fn all_answers() -> impl Iterator<Item = Option<u64>> {
    [None, Some(1), Some(16), Some(28)]
        .into_iter()
        .chain((3..=12).map(Some))
}

#[test]
fn small_jobs_with_any_plans_volume_files_and_price_files_agree() {
    const JOBS: usize = 8_000;
    let mut random = Random::of_this_run();
    let mut calls = Calls::new();
    let mut answers = BTreeSet::new();
    for number in 0..JOBS {
        let job = mixed::small_job(&mut random);
        for case in cases(&mut random, &job) {
            answers.insert(calls.agree(format_args!("job {number}"), &case));
        }
    }
    calls.counts.print(&format!("{JOBS} jobs"));
    println!("{} answers", answers.len());
    calls.counts.came(all_answers());
    assert!(calls.counts.of(None) > 50_000);
    assert!(calls.counts.of(Some(16)) > 20_000 && calls.counts.of(Some(28)) > 5_000);
    assert!(answers.len() > 10_000);
}

#[test]
fn jobs_of_all_sizes_agree() {
    const JOBS: usize = 2_000;
    let mut random = Random::of_this_run();
    let mut calls = Calls::new();
    for number in 0..JOBS {
        let job = match number % 8 {
            0 => {
                let small = small::job(&mut random);
                Spread::any(&mut random, &small).job
            }
            _ => {
                let sizes = Sizes::random(&mut random);
                sized::job(&mut random, sizes)
            }
        };
        for case in cases(&mut random, &job) {
            calls.agree(format_args!("job {number}"), &case);
        }
    }
    calls.counts.print(&format!("{JOBS} jobs"));
    calls.counts.came(all_answers());
}

#[test]
fn jobs_of_512_nodes_and_the_longest_files_agree() {
    const JOBS: usize = 60;
    let mut random = Random::of_this_run();
    let mut calls = Calls::new();
    for number in 0..JOBS {
        let job = mixed::full_job(&mut random, number, 3);
        assert_eq!(job.nodes.len(), 512);
        for case in cases(&mut random, &job) {
            calls.agree(format_args!("job {number}"), &case);
        }
        let most = volumes::file(&[999_999; 512]);
        assert_eq!(most.len(), dapohiru::VOLUMES_LEN);
        let case = Case::of(&job, job.all_watched(), most);
        let answer = calls.agree(format_args!("job {number}"), &case);
        assert!(matches!(answer, Answer::Cents(1_000_000..)), "{answer:?}");
        let case = case.by(prices::file(&[9_999; 16]));
        let answer = calls.agree(format_args!("job {number}"), &case);
        assert!(matches!(answer, Answer::Cents(100_000_000..)), "{answer:?}");
    }
    calls.counts.print(&format!("{JOBS} jobs"));
    calls.counts.came([None, Some(16), Some(28)]);
}

#[test]
fn damaged_job_files_agree() {
    const FILES: usize = 12_000;
    let mut random = Random::of_this_run();
    let mut calls = Calls::new();
    for number in 0..FILES {
        let Damaged { file, unread, job } = Damaged::random(&mut random);
        let plan = small::plan(&mut random, &job);
        for by in By::BOTH {
            let mut case = Case::any(&mut random, &job, plan.clone(), by);
            (case.checking.on.file, case.checking.on.unread) = (file.clone(), unread);
            calls.agree(format_args!("file {number}"), &case);
        }
    }
    calls.counts.print(&format!("{FILES} files"));
    calls.counts.came((3..=10).map(Some).chain([None]));
    assert!(calls.counts.of(None) as usize * 10 > FILES);
}

#[test]
fn plain_prices_of_the_benchmark_agree_with_the_second() {
    const JOBS: usize = 6_000;
    let mut random = Random::of_this_run();
    let mut decoded = Decoded::new();
    let mut counts = Counts::default();
    for number in 0..JOBS {
        let job = match number % 100 {
            0 => mixed::full_job(&mut random, number, 3),
            _ => mixed::small_job(&mut random),
        };
        for case in cases(&mut random, &job) {
            let checking::Case { on, plan, .. } = &case.checking;
            let file = &on.file;
            let cents = match &case.prices {
                None => price(&mut decoded, file, plan, &case.volumes),
                Some(prices) => price_by(&mut decoded, file, plan, &case.volumes, prices),
            };
            let answer = cents.map_or_else(Answer::Refused, Answer::Cents);
            assert_eq!(answer, case.wanted(None), "job {number}: {}", case.words());
            counts.add(refused(answer));
        }
    }
    counts.print(&format!("{JOBS} jobs"));
    counts.came(all_answers());
}

#[test]
fn longest_job_file_is_priced_and_one_byte_more_is_1() {
    let mut random = Random::of_this_run();
    let mut calls = Calls::new();
    for number in 0..20 {
        let job = sized::job(&mut random, FULL);
        let plan = small::plan(&mut random, &job);
        for by in By::BOTH {
            let mut case = Case::any(&mut random, &job, plan.clone(), by);
            assert_eq!(case.checking.on.file.len(), dapohiru::JOB_LEN);
            let answer = calls.agree(format_args!("job {number}"), &case);
            assert_eq!(refused(answer), None);
            case.checking.on.file.push(b'\n');
            case.checking.on.unread = Some(9);
            let answer = calls.agree(format_args!("job {number}"), &case);
            assert_eq!(answer, Answer::Refused(1));
        }
    }
}

#[test]
fn house_table_in_a_file_with_any_zeros_gives_the_price_of_the_house_table() {
    const JOBS: usize = 2_000;
    let mut random = Random::of_this_run();
    let mut calls = Calls::new();
    let house = dapohiru_second::pricing::house();
    for number in 0..JOBS {
        let job = mixed::job(&mut random);
        let plan = small::plan(&mut random, &job);
        let case = Case::any(&mut random, &job, plan, By::House);
        let wanted = calls.agree(format_args!("job {number}"), &case);
        let case = case.by(numbered::any(&mut random, PRICES, &house));
        let answer = calls.agree(format_args!("job {number}"), &case);
        assert_eq!(answer, wanted, "job {number}: {}", case.words());
    }
    assert_eq!(calls.counts.of(None), 2 * JOBS as u64);
}

#[test]
fn prices_of_symbols_that_no_watched_point_has_do_not_count() {
    const JOBS: usize = 2_000;
    let mut random = Random::of_this_run();
    let mut calls = Calls::new();
    let mut others = 0;
    for number in 0..JOBS {
        let job = mixed::job(&mut random);
        let plan = small::plan(&mut random, &job);
        let mut case = Case::any(&mut random, &job, plan, By::House);
        let mut cents = prices::cents(&mut random);
        case = case.by(prices::file(&cents));
        let wanted = calls.agree(format_args!("job {number}"), &case);
        let nodes = job.nodes.iter().zip(&case.checking.plan);
        let watched: BTreeSet<_> = nodes
            .filter(|(_, &byte)| byte == 1)
            .map(|(node, _)| node.value)
            .collect();
        for symbol in (0..16).filter(|symbol| !watched.contains(symbol)) {
            cents[symbol as usize] = random.below(10_000);
            others += 1;
        }
        let case = case.by(prices::file(&cents));
        let answer = calls.agree(format_args!("job {number}"), &case);
        assert_eq!(answer, wanted, "job {number}: {}", case.words());
    }
    println!("{others} prices that do not count");
}
