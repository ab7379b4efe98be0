//! The place of a refusal: every fault that a file can have, beside the second implementation.
use crate::program::{pair_with, run, run_bytes, WINDOWS};
use dapohiru_generators::damage::Damaged;
use dapohiru_generators::faults::{faulty, Fault, Form};
use dapohiru_generators::random::Random;
use dapohiru_generators::samples::{one_seal, pair};
use dapohiru_generators::zeros::filled;
use dapohiru_second::job::Job;

/// The columns where a fault is seen; of F lines that do not ascend either node may be named.
pub fn columns(fault: Fault, letters: &[u8], fields: usize) -> Option<String> {
    let field = |field: usize| format!("columns {} to {}", 6 * field + 2, 6 * field + 7);
    match fault {
        Fault::Ends(_) | Fault::Follow(_) | Fault::Form(_, Form::Letter) => {
            Some("column 1".to_string())
        }
        Fault::Form(_, Form::Field) => Some(field(fields - 1)),
        Fault::Form(_, Form::Column | Form::ZeroBeforeSpace) => Some(field(0)),
        Fault::Form(_, Form::EndByte | Form::SeventhDigit) => {
            Some(format!("column {}", 6 * fields + 2))
        }
        Fault::Number(line, ..) if letters[line] == b'F' => None,
        Fault::Number(_, number, _) => Some(field(number)),
        Fault::NoEntry => None,
    }
}

/// Every fault of a job's file, which has any zeros, is told with its number and its place.
fn faults_are_told(random: &mut Random, job: &Job) -> usize {
    let lines = job.lines();
    let letters: Vec<_> = lines.iter().map(|line| line.letter).collect();
    let faults = Fault::all(job);
    for &fault in &faults {
        let (line, number) = fault.place(&lines);
        let text = String::from_utf8(filled(random, faulty(&lines, &[fault]))).unwrap();
        let (status, printed, wrong) = run(&["plan", "-"], &text);
        assert_eq!((status, printed.as_str()), (2, ""), "{fault:?}");
        let begins = format!("dapohiru: standard input: refused {number}: ");
        assert!(wrong.starts_with(&begins), "{fault:?}: {wrong}");
        assert!(wrong.contains("\n  expected: "), "{fault:?}: {wrong}");
        let fields = lines.get(line).map_or(0, |line| line.numbers.len());
        let columns = columns(fault, &letters, fields).unwrap_or_default();
        if number != 10 {
            let place = format!("\n  line {}, {columns}", line + 1);
            assert!(wrong.contains(&place), "{fault:?}: {wrong}");
        }
    }
    faults.len()
}

#[test]
fn every_fault_is_told_with_its_number_line_and_columns() {
    let mut random = Random::of_this_run();
    let mut told = 0;
    for job in [pair(), pair(), one_seal(4)] {
        told += faults_are_told(&mut random, &job);
    }
    for _ in 0..3 {
        let job = dapohiru_generators::small::job(&mut random);
        told += faults_are_told(&mut random, &job);
    }
    println!("{told} faults");
}

#[test]
fn refusal_of_any_damaged_file_is_told_with_what_was_expected() {
    let mut random = Random::of_this_run();
    let mut told = [0; 11];
    for _ in 0..1_000 {
        let Damaged { file, unread, .. } = Damaged::random(&mut random);
        let (status, printed, wrong) = run_bytes(&["plan", "-"], &file);
        let Some(number) = unread else {
            assert_eq!(status, 0, "{}", file.escape_ascii());
            continue;
        };
        assert_eq!((status, printed.as_str()), (2, ""));
        // the place is told where the second reader finds the library's number
        let begins = format!("dapohiru: standard input: refused {number}: ");
        assert!(wrong.starts_with(&begins), "{wrong}");
        assert!(wrong.contains("\n  expected: "), "{wrong}");
        told[number as usize] += 1;
    }
    println!("refusals by number: {told:?}");
    assert!(told[4..=8].iter().all(|&count| count > 0), "{told:?}");
}

#[test]
fn what_was_expected_is_told() {
    let with = |old: &str, new: &str| pair_with(&[(old, new)]);
    let j = "J     3     3     3     2\n";
    let r = "R     2     1     1     0     2\n";
    let p = "P     2     1     2     0     1     0\n";
    let set = "a set of symbols, 0 to 7 (of symbols 0 to 2)";
    let field = "a number in six columns, right-justified, with spaces or zeros before it and no space after a digit";
    let sizes = "J and 4 fields of six columns, 25 columns in all";
    let node = "P and 6 fields of six columns, 37 columns in all";
    for (job, place, expected) in [
        (
            " ".repeat(49_915),
            "found a longer file",
            "at most 49914 bytes",
        ),
        (
            " ".repeat(49_914),
            "line 1, column 1: found ` `",
            "the letter J",
        ),
        (
            with(j, "J    17     3     3     2\n"),
            "line 1, columns 2 to 7: found 17",
            "S, the number of states, 1 to 16",
        ),
        (
            with(j, "J     3     3     3  2049\n"),
            "line 1, columns 20 to 25: found 2049",
            "E, the number of edges, 0 to 2048",
        ),
        (
            with(j, "J000017     3     3     2\n"),
            "line 1, columns 2 to 7: found 17",
            "S, the number of states, 1 to 16",
        ),
        (
            with(j, "J    00     3     3     2\n"),
            "line 1, columns 2 to 7: found 0",
            "S, the number of states, 1 to 16",
        ),
        (
            with(j, "J0    3     3     3     2\n"),
            "line 1, columns 2 to 7: found `0    3`",
            &format!("S, the number of states: {field}"),
        ),
        (
            with(j, "J3          3     3     2\n"),
            "line 1, columns 2 to 7: found `3     `",
            &format!("S, the number of states: {field}"),
        ),
        (
            with(j, "J     3   3 3     3     2\n"),
            "line 1, columns 8 to 13: found `   3 3`",
            &format!("A, the number of symbols: {field}"),
        ),
        (
            with(j, "J     3           3     2\n"),
            "line 1, columns 8 to 13: found `      `",
            &format!("A, the number of symbols: {field}"),
        ),
        (
            with(j, "J     3     3-00003     2\n"),
            "line 1, columns 14 to 19: found `-00003`",
            &format!("N, the number of nodes: {field}"),
        ),
        (
            with(j, "J0000003     3     3     2\n"),
            "line 1, columns 8 to 13: found `3     `",
            &format!("A, the number of symbols: {field}, in a line of {sizes}; this line has 26"),
        ),
        (
            with(j, "J     3     3\n"),
            "line 1, columns 14 to 19: found the end of the line",
            &format!("N, the number of nodes: {field}, in a line of {sizes}; this line has 13"),
        ),
        (
            with(j, "J     3     3     3     2\r\n"),
            "line 1, column 26: found `\\r`",
            &format!("the end of the line (byte 10) after {sizes}; this line has 26{WINDOWS}"),
        ),
        (
            with(j, "J     3     3     3     2\r"),
            "line 1, column 26: found `\\r`",
            &format!("the end of the line (byte 10) after {sizes}; this line has 57"),
        ),
        (
            with(j, "J0000003000003000003000002\n"),
            "line 1, column 26: found `2`",
            &format!("the end of the line (byte 10) after {sizes}; this line has 26"),
        ),
        (
            with(j, "J000003000003000003000000002\n"),
            "line 1, column 26: found `0`",
            &format!("the end of the line (byte 10) after {sizes}; this line has 28"),
        ),
        (
            with(j, "J00003000003000003000002\n"),
            "line 1, columns 20 to 25: found `00002` and then the end of the line",
            &format!("E, the number of edges: {field}, in a line of {sizes}; this line has 24"),
        ),
        (
            with(j, "J000003000003000003\n"),
            "line 1, columns 20 to 25: found the end of the line",
            &format!("E, the number of edges: {field}, in a line of {sizes}; this line has 19"),
        ),
        (
            with(p, "P000002000001000002000000000001000000"),
            "line 7, column 38: found `F`",
            &format!("the end of the line (byte 10) after {node}; this line has 50"),
        ),
        (
            with(p, "P0000020000010000020000000000010000000\n"),
            "line 7, column 38: found `0`",
            &format!("the end of the line (byte 10) after {node}; this line has 38"),
        ),
        (
            with(p, "P0000020000001000002000000000001000000\n"),
            "line 7, column 38: found `0`",
            &format!("the end of the line (byte 10) after {node}; this line has 38"),
        ),
        (
            with(p, "P00000200001000002000000000001000000\n"),
            "line 7, columns 32 to 37: found `00000` and then the end of the line",
            &format!("the after set: {field}, in a line of {node}; this line has 36"),
        ),
        (
            with(r, "R     3     1     1     0     2\n"),
            "line 4, columns 2 to 7: found 3",
            "the state, 2 in this line",
        ),
        (
            with(r, "R     2     1     1     0     3\n"),
            "line 4, columns 26 to 31: found 3",
            "the next state on symbol 2, 0 to 2",
        ),
        (
            with(r, "R     2000001000001     0000003\n"),
            "line 4, columns 26 to 31: found 3",
            "the next state on symbol 2, 0 to 2",
        ),
        (
            with(p, "P     2     4     2     0     1     0\n"),
            "line 7, columns 8 to 13: found 4",
            "the kind, 0 plain, 1 event, 2 call or 3 call that may come back in",
        ),
        (
            with(p, "P     2000004     2     0     1     0\n"),
            "line 7, columns 8 to 13: found 4",
            "the kind, 0 plain, 1 event, 2 call or 3 call that may come back in",
        ),
        (
            with(p, "P     2     3     8     0     1     0\n"),
            "line 7, columns 14 to 19: found 8",
            &format!("the re-entrant call's set, {set}"),
        ),
        (
            with(p, "P     2     3     7     0     0     1\n"),
            "line 7, columns 32 to 37: found 1",
            "the after set, 0 where the exit mark is 0",
        ),
        (
            with(p, "P     2     1     3     0     1     0\n"),
            "line 7, columns 14 to 19: found 3",
            "the symbol of an event node, 0 to 2",
        ),
        (
            with(p, "P     2     0     2     0     1     0\n"),
            "line 7, columns 14 to 19: found 2",
            "the value of a plain node, 0",
        ),
        (
            with(p, "P     2     2     8     0     1     0\n"),
            "line 7, columns 14 to 19: found 8",
            &format!("the call's set, {set}"),
        ),
        (
            with(p, "P     2     1     2     0     1     8\n"),
            "line 7, columns 32 to 37: found 8",
            &format!("the after set, {set}"),
        ),
        (
            with(p, "P     2     1     2     0     0     1\n"),
            "line 7, columns 32 to 37: found 1",
            "the after set, 0 where the exit mark is 0",
        ),
        (
            with("F     1     2\n", "F     0     1\n"),
            "line 9, columns 8 to 13: found 1",
            "an edge after 0 to 1, since edges ascend by the first node and then by the second",
        ),
        (
            with("F     1     2\n", "F     1     3\n"),
            "line 9, columns 8 to 13: found 3",
            "the node that it goes to, 0 to 2",
        ),
        (
            with("P     0     1     0     1", "P     0     1     0     0"),
            "found no node with an entry set",
            "a set of start states above 0 in columns 20 to 25 of one of the lines 5 to 7",
        ),
    ] {
        let (_, _, wrong) = run(&["plan", "-"], &job);
        let ends = format!("\n  {place}\n  expected: {expected}\n");
        assert!(wrong.ends_with(&ends), "{wrong}\nand not{ends}");
    }
}
