//! The command `rule`: R lines of rules.
use crate::program::{example, folder, run, run_bytes, Done, PAIR};
use dapohiru_generators::random::Random;
use dapohiru_generators::rows::{given, most_rows, of_rule, rows};
use dapohiru_generators::zeros::{filled, zero_filled};
use dapohiru_generators::{samples, small};
use dapohiru_second::job::{members, spell, Line};
use dapohiru_second::rows::{text, Given, Row};
use std::fs;

/// PAIR's rule as rows.
pub const ROWS: &str = include_str!("../../../../examples/pair.rows");
/// The sizes of PAIR's rule.
pub const SIZES: [&str; 3] = ["--states=3", "--symbols=3", "--finals=2"];
/// Its R lines.
const LINES: &str = "\
R     0     0     1     0     0
R     1     0     1     0     2
R     2     1     1     0     2
";
/// What is noted of a rule without final states.
const NO_ALARM: &str = "note: no state is final (--finals), so the rule raises no alarm\n";

/// Makes PAIR's rule from rows, which may be - for standard input, with more words.
pub fn pair(rows: &str, words: &[&str], input: &str) -> Done {
    run(&[&["rule", rows][..], &SIZES, words].concat(), input)
}

/// The options that say what is given with rows; no option says that no state is final.
pub fn options(given: Given) -> Vec<String> {
    let finals: Vec<_> = members(given.finals)
        .map(|state| state.to_string())
        .collect();
    let mut options = vec![
        format!("--states={}", given.states),
        format!("--symbols={}", given.symbols),
    ];
    if !finals.is_empty() {
        options.push(format!("--finals={}", finals.join(",")));
    }
    options
}

/// Makes a rule from a text of rows and what is given with them.
pub fn made(given: Given, text: &[u8]) -> Done {
    let options = options(given);
    let words = options.iter().map(String::as_str);
    let words: Vec<_> = ["rule", "-"].into_iter().chain(words).collect();
    run_bytes(&words, text)
}

/// The rows make a rule with these R lines, whatever zeros stand in them.
fn lines_are(random: &mut Random, given: Given, rows: &[Row], lines: &[Line]) {
    let text = filled(random, text(rows));
    let (status, printed, wrong) = made(given, &text);
    let shown = text.escape_ascii();
    let note = if given.finals == 0 { NO_ALARM } else { "" };
    assert_eq!((status, wrong.as_str()), (0, note), "{shown}");
    assert_eq!(printed.as_bytes(), spell(lines), "{shown}");
}

#[test]
fn rows_become_r_lines() {
    let wanted = (0, LINES.to_string(), String::new());
    assert_eq!(pair(&example("pair.rows"), &[], ""), wanted);
    assert_eq!(pair("-", &[], ROWS), wanted);
    assert_eq!(pair("-", &["-o", "-"], ROWS), wanted);
    // in any order, and pair by pair
    let mut rows: Vec<_> = ROWS.split_inclusive('\n').collect();
    rows.reverse();
    assert_eq!(pair("-", &[], &rows.concat()), wanted);
    let pairs: String = [[1, 0, 0], [1, 0, 2], [1, 0, 2]]
        .iter()
        .enumerate()
        .flat_map(|(q, next)| {
            let row = move |(a, to): (usize, &usize)| format!("Q{q:>6}{q:>6}{a:>6}{a:>6}{to:>6}\n");
            next.iter().enumerate().map(row).collect::<Vec<_>>()
        })
        .collect();
    assert_eq!(pair("-", &[], &pairs), wanted);
    // one row for all
    let words = [
        "rule",
        "-",
        "--finals",
        "0,15",
        "--states",
        "16",
        "--symbols",
        "016",
    ];
    let (status, printed, wrong) = run(&words, "Q     0    15     0    15     7\n");
    assert_eq!((status, wrong.as_str()), (0, ""));
    assert_eq!(printed.lines().count(), 16);
    let seven = "     7".repeat(16);
    assert!(printed.starts_with(&format!("R     0     1{seven}\nR     1     0{seven}\n")));
    assert!(printed.ends_with(&format!("R    15     1{seven}\n")));
}

#[test]
fn printed_lines_make_a_job_that_is_planned_as_the_same_job() {
    let (_, printed, _) = pair(&example("pair.rows"), &[], "");
    let (head, rest) = (PAIR.lines().next().unwrap(), PAIR.find("P ").unwrap());
    let job = format!("{head}\n{printed}{}", &PAIR[rest..]);
    assert_eq!(job, PAIR);
    let listing = include_str!("../expected/pair.txt").to_string();
    assert_eq!(run(&["list", "-"], &job), (0, listing, String::new()));
    assert_eq!(run(&["plan", "-"], &job).1, "011\n");
}

#[test]
fn rows_of_the_rule_of_any_job_become_its_r_lines() {
    let mut random = Random::of_this_run();
    let mut jobs: Vec<_> = (0..50).map(|_| small::job(&mut random)).collect();
    jobs.push(samples::sixteen());
    for job in jobs {
        let (given, mut rows) = of_rule(&job);
        random.shuffle(&mut rows);
        let lines = job.lines().into_iter();
        let lines: Vec<_> = lines.filter(|line| line.letter == b'R').collect();
        lines_are(&mut random, given, &rows, &lines);
    }
}

#[test]
fn every_cell_holds_the_next_state_of_its_one_row() {
    let mut random = Random::of_this_run();
    for turn in 0..60 {
        let (given, rows) = match turn {
            0 => most_rows(&mut random),
            _ => {
                let given = given(&mut random);
                (given, rows(&mut random, given))
            }
        };
        let next = |state: u64, symbol: u64| {
            let is_in = |number: u64, [first, last]: [u64; 2]| (first..=last).contains(&number);
            let names = |row: &&Row| is_in(state, row.states) && is_in(symbol, row.symbols);
            rows.iter().find(names).unwrap().next
        };
        let line = |state: u64| {
            let mut numbers = vec![state, given.finals >> state & 1];
            numbers.extend((0..given.symbols).map(|symbol| next(state, symbol)));
            Line::new(b'R', &numbers)
        };
        let lines: Vec<_> = (0..given.states).map(line).collect();
        lines_are(&mut random, given, &rows, &lines);
    }
}

#[test]
fn zeros_before_numbers_change_nothing() {
    let sheet = String::from_utf8(zero_filled(ROWS.into())).unwrap();
    assert!(sheet.starts_with("Q000000000002000000000000000001\n"));
    for words in [&[][..], &["--table"], &["--json"], &["--dot"]] {
        assert_eq!(pair("-", words, &sheet), pair("-", words, ROWS));
    }
}

#[test]
fn rule_without_final_states_is_noted() {
    let rows = example("pair.rows");
    let words = ["rule", &rows, "--states", "3", "--symbols", "3"];
    let lines = LINES.replace("R     2     1", "R     2     0");
    assert_eq!(run(&words, ""), (0, lines, NO_ALARM.to_string()));
    let (_, printed, wrong) = run(&[&words[..], &["--table"]].concat(), "");
    assert!(!printed.contains("yes"), "{printed}");
    let ends = "\nNo state is final, so no event raises an alarm.\n";
    assert!(printed.ends_with(ends), "{printed}");
    assert_eq!(wrong, NO_ALARM);
}

#[test]
fn file_of_the_rule_is_written_whole() {
    let folder = folder("rule-file");
    let to = folder.join("pair.lines").display().to_string();
    for words in [&[][..], &["--table"], &["--json"], &["--dot"]] {
        let wanted = pair("-", words, ROWS);
        let done = pair("-", &[words, &["-o", &to]].concat(), ROWS);
        assert_eq!(done, (0, String::new(), String::new()));
        assert_eq!(fs::read_to_string(&to).unwrap(), wanted.1);
    }
    // nothing is written of refused rows
    let before = fs::read_to_string(&to).unwrap();
    let (status, printed, _) = pair("-", &["-o", &to], "Q\n");
    assert_eq!((status, printed.as_str()), (2, ""));
    assert_eq!(fs::read_to_string(&to).unwrap(), before);
}
