//! Calls on buffers that are allocations of their own size, for valgrind to see every byte read or
//! written beside one. The answers are compared with the second reader, the second prices, the second rules, the
//! second step and the second edges too.
use crate::calls::Calls;
use crate::found::Found;
use crate::lengths;
use crate::progress::Progress;
use dapohiru_compare::{arrivals, expression, rows};
use dapohiru_generators::damage::{damage, damaged};
use dapohiru_generators::random::Random;
use dapohiru_generators::sized::{self, Sizes, FULL};
use dapohiru_generators::small;
use dapohiru_generators::zeros::{filled, spoil};
use std::io::{self, Write};

/// How many files there are between the calls for rule rows, expressions and edges.
const TEXTS_AFTER: u64 = 8;

/// A file with any zeros: mostly a damaged one, of a small job or of one of other sizes.
fn file(random: &mut Random) -> Vec<u8> {
    let job = match random.below(4) {
        0 => {
            let sizes = Sizes::random(random);
            sized::job(random, sizes)
        }
        _ => small::job(random),
    };
    match random.below(8) {
        0 => filled(random, job.file()),
        1..=3 => {
            let mut file = filled(random, job.file());
            match random.below(6) {
                0 => spoil(random, &mut file),
                _ => damage(random, &mut file),
            }
            file
        }
        _ => damaged(random, &job),
    }
}

/// Rules made from rows and from expressions of this seed, and calls on edges, sound, damaged and with faults.
fn texts(calls: &mut Calls, seed: u64) -> Result<(), String> {
    let random = &mut Random(seed);
    for case in rows::cases(random) {
        calls.rows(&case)?;
    }
    for case in expression::cases(random) {
        calls.expression(&case)?;
    }
    for case in arrivals::cases(random) {
        calls.on_edges(&case)?;
    }
    Ok(())
}

/// Makes the calls, and says what they came to.
pub fn run(seed: u64, files: u64, out: &mut impl Write) -> io::Result<Found> {
    let mut progress = Progress::new();
    let mut calls = Calls::new(!seed);
    let mut random = Random(seed);
    let mut found = lengths::run(&mut calls, &mut random);
    let longest = sized::job(&mut random, FULL).file();
    let longest = filled(&mut random, longest);
    // the longest file, whole and cut at its end
    for len in longest.len() - 2..=longest.len() {
        found = found.and_then(|()| calls.file(&mut random, &longest[..len]));
    }
    for number in 0..files {
        if found.is_err() {
            break;
        }
        let file = file(&mut random);
        let mut answer = calls.file(&mut random, &file);
        if number % TEXTS_AFTER == 0 {
            answer = answer.and_then(|()| texts(&mut calls, !seed ^ number));
        }
        found = answer.map_err(|why| format!("file {number}: {why}"));
        progress.show(number, files, "files");
    }
    progress.end(out, &format!("seed {seed}: {files} files"), &calls.tally)?;
    match found {
        Ok(()) => {
            writeln!(out, "no difference")?;
            Ok(Found::Nothing)
        }
        Err(why) => {
            writeln!(out, "\ndifference: {why}")?;
            writeln!(
                out,
                "\nto see it again: dapohiru-selftest memory {seed} {files}"
            )?;
            Ok(Found::Difference)
        }
    }
}
