//! Microseconds to make a rule from rows: the library's call beside a plain Rust program that makes the same tests on
//! the same bytes. The texts are the longest ones, a row for each of 256 pairs, sound and refused by their last row, and
//! the shortest, one row for all pairs; with spaces before the numbers and filled with zeros.
//! `cargo bench --offline -p dapohiru-plain --bench rows` runs it.
use dapohiru::numbers::{self, ACCEPTED};
use dapohiru_generators::random::Random;
use dapohiru_generators::rows::most_rows;
use dapohiru_generators::zeros::zero_filled;
use dapohiru_plain::rows::rows;
use dapohiru_second::rows::{text, Row};
use std::hint::black_box;
use std::time::Instant;

/// Calls in one repetition.
const CALLS: usize = 200;
/// Repetitions of each program, taken in turn.
const REPETITIONS: usize = 201;
/// The final set that is given; S and A are 16.
const FINALS: u64 = 0x8009;

/// The library's answer, with what it leaves in the rule.
fn by_library(text: &[u8], rule: &mut [u8]) -> Result<(), u64> {
    match numbers::rows(text, 16, 16, FINALS, rule) {
        ACCEPTED => Ok(()),
        number => Err(number),
    }
}

/// The plain program's.
fn by_plain(text: &[u8], rule: &mut [u8]) -> Result<(), u64> {
    rows(text, 16, 16, FINALS, rule)
}

/// The microseconds that a program takes for one text.
fn time(text: &[u8], program: fn(&[u8], &mut [u8]) -> Result<(), u64>) -> f64 {
    let mut rule = [0; 256];
    let start = Instant::now();
    for _ in 0..CALLS {
        let _ = black_box(program(black_box(text), black_box(&mut rule)));
    }
    start.elapsed().as_secs_f64() * 1e6 / CALLS as f64
}

fn median(mut times: Vec<f64>) -> f64 {
    times.sort_by(f64::total_cmp);
    times[times.len() / 2]
}

/// Times both programs on a text in turn, and prints the medians and their ratio. Both have this answer.
fn print(what: &str, text: &[u8], answer: Result<(), u64>) {
    let (mut ours, mut theirs) = ([7; 256], [7; 256]);
    assert_eq!(by_library(text, &mut ours), answer);
    assert_eq!(by_plain(text, &mut theirs), answer);
    assert_eq!(ours, theirs, "the two rules differ");
    let (mut library, mut plain) = (Vec::new(), Vec::new());
    for _ in 0..REPETITIONS {
        library.push(time(text, by_library));
        plain.push(time(text, by_plain));
    }
    let (library, plain) = (median(library), median(plain));
    println!(
        "  {what:<46} {library:>7.2}   {plain:>10.2}   {:>5.2}",
        library / plain
    );
}

fn main() {
    let mut random = Random::of_this_run();
    println!("microseconds for one text, median of {REPETITIONS} repetitions of {CALLS} calls");
    println!("{:<48} library   plain Rust   ratio", "");
    let most = text(&most_rows(&mut random).1);
    // the next state of the last row is 16
    let mut refused = most.clone();
    refused[8_185..8_191].copy_from_slice(b"    16");
    let one = text(&[Row {
        states: [0, 15],
        symbols: [0, 15],
        next: 15,
    }]);
    for (what, text, answer) in [
        ("256 rows of one pair", most, Ok(())),
        ("256 rows, the last refused", refused, Err(17)),
        ("one row for all pairs", one, Ok(())),
    ] {
        print(&format!("{what}, with spaces"), &text, answer);
        print(
            &format!("{what}, filled with zeros"),
            &zero_filled(text),
            answer,
        );
    }
}
