//! The answers to fixed calls, held to a stored file: the jobs of the examples and trials, a thousand
//! generated jobs, damaged files, and blocks of events. An answer is a number, a plan or a listing as a
//! hash, and one letter for each plan that is checked. No file has a node of kind 3: these answers are of
//! document 01.
#[allow(dead_code)]
#[path = "trials/jobs.rs"]
mod jobs;
#[allow(dead_code)]
#[path = "trials/stored.rs"]
mod stored;

use dapohiru::numbers::{self, ACCEPTED};
use dapohiru_generators::damage::damaged_without_zeros;
use dapohiru_generators::events::Call;
use dapohiru_generators::faults::{possible, refused_with_forms, Form, NUMBERS};
use dapohiru_generators::large::{self, Order};
use dapohiru_generators::mixed;
use dapohiru_generators::random::Random;
use dapohiru_generators::reentry::Reentry;
use dapohiru_generators::rings;
use dapohiru_generators::sized::{self, Sizes, FULL};
use dapohiru_generators::small;
use dapohiru_generators::spread::Spread;
use dapohiru_generators::zeros::{filled, zero_filled};
use dapohiru_plain::check::Checker;
use dapohiru_plain::plan::Counts;
use dapohiru_second::job::Job;
use dapohiru_second::listing::listing;
use dapohiru_second::reading::{Reader, Slip, WORK};
use std::collections::BTreeSet;
use std::fs;
use std::path::Path;

/// The stored file. A run leaves its own answers in `rust/target/tmp/answers.txt`.
const STORED: &str = "rust/compare/tests/expected/answers.txt";

/// How many trials there are without kind 3.
const TRIALS: usize = 22;

/// The stored plans and listings. A run leaves its own in `rust/target/tmp/listings.txt`.
const LISTINGS: &str = "rust/compare/tests/expected/listings.txt";

/// FNV-1a.
fn hash(bytes: &[u8]) -> u64 {
    bytes.iter().fold(0xcbf2_9ce4_8422_2325, |hash, &byte| {
        (hash ^ u64::from(byte)).wrapping_mul(0x0100_0000_01b3)
    })
}

/// A generator for the call of this number; it does not depend on the calls before.
fn random(number: u64) -> Random {
    Random(Random(number).number())
}

/// The answers to a file, and to plans of it beside its own.
fn answers(name: &str, file: &[u8], plans: &[Vec<u8>]) -> String {
    let (mut work, mut plan, mut listing) = (vec![9; WORK], vec![7; 512], vec![b'?'; 32_768]);
    let planned = numbers::plan(file, &mut work, &mut plan);
    let listed = numbers::list(file, &mut work, &mut listing);
    listing.truncate(listed.saturating_sub(ACCEPTED) as usize);
    let own = plan.split(|&byte| byte == 7).next().unwrap_or_default();
    let verdicts = [own].into_iter().chain(plans.iter().map(|plan| &plan[..]));
    let verdicts: Vec<_> = verdicts
        .map(
            |plan| match numbers::check(file, plan, &mut work).checked_sub(ACCEPTED) {
                Some(0) => "F",
                Some(1) => "D",
                _ => "X",
            },
        )
        .collect();
    format!(
        "{name}: file {:016x}, plan {planned:x} {:016x}, list {listed:x} {:016x}, checks {}",
        hash(file),
        hash(&plan),
        hash(&listing),
        verdicts.concat()
    )
}

/// A few plans of a job.
fn some_plans(random: &mut Random, job: &Job) -> Vec<Vec<u8>> {
    let mut plans = small::plans(random, job);
    random.shuffle(&mut plans);
    plans.truncate(4);
    plans.extend([job.all_watched(), job.plan_of(&[])]);
    plans
}

/// A generated job without kind 3: small ones, some of them among many nodes, and some of 512 nodes.
fn job(random: &mut Random, number: u64) -> Job {
    match number % 20 {
        0 if number.is_multiple_of(40) => large::job_with(random, Order::Flow, Reentry::Never),
        0 => large::job_with(random, Order::Parts, Reentry::Never),
        1 if number % 200 == 1 => sized::job_with(random, FULL, Reentry::Never),
        1 | 2 => {
            let sizes = Sizes::random(random);
            sized::job_with(random, sizes, Reentry::Never)
        }
        3..=5 => rings::job(random),
        6 => mixed::job_with(random, Reentry::Never),
        7..=9 => {
            let job = small::job_with(random, Reentry::Never);
            let nodes = random.pick(&[16, 64, 65, 255, 256, 257, 511, 512]);
            Spread::random(random, &job, nodes).job
        }
        _ => small::job_with(random, Reentry::Never),
    }
}

/// Whether a file is read alike where kind 3 is wrong.
fn is_without_kind_3(file: &[u8]) -> bool {
    let read = |slip| Reader { slip }.read(file, WORK);
    read(None) == read(Some(Slip::Kind3Refused))
}

/// A file with damage or with a fault of its own, written without zeros before its numbers.
fn damaged_file(random: &mut Random, number: u64) -> Vec<u8> {
    let job = small::job_with(random, Reentry::Never);
    if number.is_multiple_of(2) {
        return damaged_without_zeros(random, &job);
    }
    let refusal = possible(&job, NUMBERS[number as usize % 8]);
    refused_with_forms(random, &job, refusal, &Form::WITHOUT_ZEROS)
}

/// The answers to a thousand events, as a hash of their numbers and records.
fn events(number: u64) -> String {
    let (mut random, mut left) = (random(number), Vec::new());
    for _ in 0..1_000 {
        let mut call = Call::any(&mut random);
        let answer = call.by(numbers::event);
        left.extend(answer.to_le_bytes());
        left.extend(call.record());
    }
    format!("events {number}: {:016x}", hash(&left))
}

/// Every answer, a line each. Each file is changed in this way first.
fn all(mut changed: impl FnMut(Vec<u8>) -> Vec<u8>) -> Vec<String> {
    let names = [
        "again-edge",
        "again-sets",
        "once",
        "pair",
        "seal-after",
        "seal",
    ];
    let examples = names.map(|name| stored::file(&format!("examples/{name}.job")));
    let trials = stored::trials().into_iter().map(|trial| trial.file);
    let trials = trials.filter(|file| is_without_kind_3(file)).take(TRIALS);
    let named = examples.into_iter().chain(trials).enumerate();
    let every = |nodes: u32| (0..1_u32 << nodes).map(move |set| bits(set, nodes));
    let plans: Vec<_> = (0..=3).flat_map(every).collect();
    let mut lines: Vec<_> = named
        .map(|(number, file)| answers(&format!("trial {number}"), &changed(file), &plans))
        .collect();
    lines.extend((0..1_000).map(|number| {
        let mut random = random(number);
        let job = job(&mut random, number);
        let plans = some_plans(&mut random, &job);
        answers(&format!("job {number}"), &changed(job.file()), &plans)
    }));
    lines.extend((0..300).map(|number| {
        let file = damaged_file(&mut random(number), number);
        answers(&format!("damaged {number}"), &changed(file), &[])
    }));
    lines.extend((0..40).map(events));
    lines
}

/// The number and bytes of a file's plan, and its listing.
fn plan_and_listing(name: &str, file: &[u8]) -> String {
    let (mut work, mut plan, mut listing) = (vec![9; WORK], vec![7; 512], vec![b'?'; 32_768]);
    let planned = numbers::plan(file, &mut work, &mut plan);
    let listed = numbers::list(file, &mut work, &mut listing);
    listing.truncate(listed.saturating_sub(ACCEPTED) as usize);
    let bytes = plan.iter().take_while(|&&byte| byte != 7);
    let bytes: String = bytes.map(u8::to_string).collect();
    let text = String::from_utf8(listing).expect("a listing is text");
    format!("{name}: plan {planned:x} {bytes}\n{text}")
}

/// The plans and listings of the trials and of a thousand small jobs, without kind 3.
fn listings() -> String {
    let trials = stored::trials().into_iter().map(|trial| trial.file);
    let trials = trials.filter(|file| is_without_kind_3(file)).take(TRIALS);
    let trials = trials.enumerate();
    let trials = trials.map(|(number, file)| plan_and_listing(&format!("trial {number}"), &file));
    let jobs = (0..1_000).map(|number| {
        let job = small::job_with(&mut random(10_000 + number), Reentry::Never);
        plan_and_listing(&format!("job {number}"), &job.file())
    });
    trials.chain(jobs).collect()
}

/// A plan of so many nodes, with the nodes of this set watched.
fn bits(set: u32, nodes: u32) -> Vec<u8> {
    (0..nodes).map(|node| (set >> node & 1) as u8).collect()
}

#[test]
fn answers_are_those_stored() {
    let lines = all(|file| file);
    let seen = Path::new(env!("CARGO_TARGET_TMPDIR")).join("answers.txt");
    fs::write(&seen, lines.join("\n") + "\n").expect("the answers are written");
    let stored = String::from_utf8(stored::file(STORED)).expect("the stored file is text");
    let stored: Vec<_> = stored.lines().collect();
    for (line, wanted) in lines.iter().zip(&stored) {
        let file = |line: &str| line.split(", plan ").next().map(str::to_string);
        assert_eq!(
            file(line),
            file(wanted),
            "another file is made than was stored"
        );
        assert_eq!(line, wanted, "all answers are in {}", seen.display());
    }
    assert_eq!(
        lines.len(),
        stored.len(),
        "all answers are in {}",
        seen.display()
    );
}

#[test]
fn plans_and_listings_are_those_stored_byte_for_byte() {
    let text = listings();
    let seen = Path::new(env!("CARGO_TARGET_TMPDIR")).join("listings.txt");
    fs::write(&seen, &text).expect("the listings are written");
    let stored = String::from_utf8(stored::file(LISTINGS)).expect("the stored file is text");
    for (line, wanted) in text.lines().zip(stored.lines()) {
        assert_eq!(line, wanted, "all listings are in {}", seen.display());
    }
    assert_eq!(text.len(), stored.len(), "{}", seen.display());
}

#[test]
fn walks_and_the_plain_planner_give_the_stored_plans_and_listings() {
    let stored = String::from_utf8(stored::file(STORED)).expect("the stored file is text");
    let stored = stored.lines().filter(|line| line.starts_with("job "));
    let mut checker = Checker::default();
    let mut listed = 0;
    for (number, line) in (0..1_000).zip(stored) {
        let job = job(&mut random(number), number);
        let file = job.file();
        let mut bytes = vec![7; 512];
        let counts = checker.plan(&file, &mut vec![0; WORK], &mut bytes);
        let Counts {
            points,
            watched,
            passes,
        } = counts.expect("the job is planned");
        let planned = ACCEPTED + ((points as u64) << 32) + ((watched as u64) << 16) + passes;
        let mut wanted = format!(
            "job {number}: file {:016x}, plan {planned:x} {:016x}, list ",
            hash(&file),
            hash(&bytes)
        );
        // walks of many nodes take long
        if job.nodes.len() < 100 {
            let listing = listing(&job);
            let len = ACCEPTED + listing.len() as u64;
            wanted += &format!("{len:x} {:016x}, checks ", hash(&listing));
            listed += 1;
        }
        assert!(line.starts_with(&wanted), "{line}\nand not\n{wanted}");
    }
    println!("{listed} listings");
    assert!(listed > 700);
}

#[test]
fn answers_to_files_with_zeros_are_those_stored() {
    let stored = String::from_utf8(stored::file(STORED)).expect("the stored file is text");
    let mut random = random(1);
    let without_file = |line: &str| {
        let (name, rest) = line.split_once(": ").expect("a name");
        let answers = rest
            .split_once(", plan ")
            .map_or(rest, |(_, answers)| answers);
        format!("{name}: {answers}")
    };
    for lines in [all(zero_filled), all(|file| filled(&mut random, file))] {
        for (line, wanted) in lines.iter().zip(stored.lines()) {
            assert_eq!(without_file(line), without_file(wanted));
        }
        assert_eq!(lines.len(), stored.lines().count());
    }
}

#[test]
fn stored_answers_are_of_all_kinds() {
    let stored = String::from_utf8(stored::file(STORED)).expect("the stored file is text");
    let of = |kind: &str| stored.lines().filter(|line| line.starts_with(kind)).count();
    assert_eq!(
        ["trial ", "job ", "damaged ", "events "].map(of),
        [28, 1_000, 300, 40]
    );
    let plans: BTreeSet<_> = stored
        .lines()
        .filter_map(|line| line.split(", plan ").nth(1)?.split(' ').next())
        .collect();
    for refusal in 3..=10 {
        assert!(plans.contains(format!("{refusal:x}").as_str()), "{refusal}");
    }
    println!("{} answers of planning", plans.len());
    assert!(plans.len() > 100);
    let checks: String = stored
        .lines()
        .filter_map(|line| line.split(", checks ").nth(1))
        .collect();
    for verdict in ['F', 'D', 'X'] {
        assert!(checks.matches(verdict).count() > 500, "{verdict}");
    }
}

#[test]
fn files_of_the_stored_answers_have_no_kind_3() {
    for number in 0..1_000 {
        let job = job(&mut random(number), number);
        assert!(is_without_kind_3(&job.file()), "job {number}");
    }
    for number in 0..300 {
        let file = damaged_file(&mut random(number), number);
        assert!(is_without_kind_3(&file), "damaged {number}");
    }
}
