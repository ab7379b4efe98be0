//! The stored output of the programs `trials` and `listing`, and what `listing` prints, beside a second
//! implementation that walks. No test here calls the library.
mod jobs;
mod stored;

use dapohiru_generators::random::Random;
use dapohiru_generators::zeros::{filled, zero_filled};
use dapohiru_second::checking::{check, Answer, Call};
use dapohiru_second::job::{spell, Line};
use dapohiru_second::listing::listing;
use dapohiru_second::reading::WORK;
use dapohiru_second::walk::Walks;
use jobs::{job_of, refusal};
use std::io::Write;
use std::path::Path;
use std::process::{Command, Stdio};
use std::thread;
use stored::{file, trials, Asked, Trial};

/// The X line of a refusal.
fn refused(number: u64) -> Vec<u8> {
    spell(&[Line::new(b'X', &[number])])
}

/// What the listing program prints for a file.
fn listed(file: &[u8]) -> Vec<u8> {
    match refusal(file) {
        Some(number) => refused(number),
        None => listing(&job_of(file)),
    }
}

/// What the plan check says of a file and a plan.
fn checked(file: &[u8], plan: &[u8]) -> String {
    let unread = refusal(file);
    let job = unread.is_none().then(|| job_of(file));
    let walks = job.as_ref().map(|job| Walks::new(job, None));
    let call = Call {
        file_len: file.len(),
        held: walks.as_ref().ok_or_else(|| unread.unwrap()),
        plan,
        work_len: WORK,
    };
    match check(&call, None).answer {
        Answer::Faithful => "faithful".to_string(),
        Answer::Different(_) => "different".to_string(),
        Answer::Refused(number) => format!("X {number}"),
    }
}

#[test]
fn every_trial_has_the_answer_of_the_walks() {
    let trials = trials();
    for Trial { title, file, asked } in &trials {
        match asked {
            Asked::Listing(lines) => assert_eq!(
                lines.escape_ascii().to_string(),
                listed(file).escape_ascii().to_string(),
                "{title}"
            ),
            Asked::Check(plan, verdict) => assert_eq!(verdict, &checked(file, plan), "{title}"),
        }
    }
    println!("{} trials", trials.len());
}

#[test]
fn every_kind_of_answer_is_among_the_trials() {
    let trials = trials();
    let listings = |wanted: u8| {
        let begins =
            |trial: &&Trial| matches!(&trial.asked, Asked::Listing(lines) if lines[0] == wanted);
        trials.iter().filter(begins).count()
    };
    let verdicts = |wanted: &str| {
        let says =
            |trial: &&Trial| matches!(&trial.asked, Asked::Check(_, verdict) if verdict == wanted);
        trials.iter().filter(says).count()
    };
    let counts = [
        listings(b'W'),
        listings(b'X'),
        verdicts("faithful"),
        verdicts("different"),
    ];
    assert_eq!(counts, [8, 5, 3, 6]);
    assert_eq!(trials.len(), 22);
}

#[test]
fn listing_program_prints_what_the_walks_list() {
    let job = file("crates/listing/stdin");
    assert_eq!(file("crates/listing/stdout"), listed(&job));
    assert_eq!(job, file("examples/pair.job"));
}

/// What the program `listing`, which `rt ci` builds, prints for a file on standard input.
fn printed(file: &[u8]) -> Vec<u8> {
    let program = Path::new(env!("CARGO_MANIFEST_DIR")).join("../../crates/listing/out/listing");
    let mut child = Command::new(&program)
        .stdin(Stdio::piped())
        .stdout(Stdio::piped())
        .spawn()
        .unwrap_or_else(|why| panic!("{}: {why}: run `rt ci`", program.display()));
    let mut input = child.stdin.take().unwrap();
    let bytes = file.to_vec();
    // the program stops reading past the limit, so the pipe may close early
    let writer = thread::spawn(move || drop(input.write_all(&bytes)));
    let output = child.wait_with_output().unwrap();
    writer.join().unwrap();
    output.stdout
}

#[test]
fn the_listing_program_prints_what_the_walks_say_of_every_trial_job() {
    for trial in trials() {
        assert_eq!(printed(&trial.file), listed(&trial.file), "{}", trial.title);
    }
}

#[test]
fn the_listing_program_prints_for_a_file_with_zeros_what_it_prints_without() {
    let mut random = Random::of_this_run();
    for trial in trials() {
        let wanted = printed(&trial.file);
        let some = filled(&mut random, trial.file.clone());
        for file in [zero_filled(trial.file), some] {
            assert_eq!(printed(&file), wanted, "{}", trial.title);
        }
    }
}

#[test]
fn the_listing_program_refuses_longer_input_and_does_not_cut_it() {
    let pair = file("examples/pair.job");
    for (len, number) in [(0, 3), (49_914, 4), (49_915, 1), (200_000, 1)] {
        assert_eq!(printed(&vec![b'J'; len]), refused(number), "{len} bytes");
    }
    let mut long = pair.clone();
    long.resize(200_000, b'\n');
    assert_eq!(printed(&long), refused(1));
    assert_eq!(printed(&pair), listed(&pair));
}
