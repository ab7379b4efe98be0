//! The rules of trial jobs: their numbers and every byte, held to a stored file, and those by hand.
use dapohiru::numbers::{self, ACCEPTED};
use dapohiru_compare::compared::Compared;
use dapohiru_compare::library::GUARDED;
use dapohiru_compare::ruling::{Case, Memory};
use dapohiru_compare::wrapper::WRAPPER;
use dapohiru_generators::samples::{in_loop, pair, sixteen, turn};
use dapohiru_generators::zeros::zero_filled;
use dapohiru_second::job::{Job, Node, PLAIN};
use dapohiru_second::reading::WORK;
use std::fs;
use std::path::Path;

/// The stored rules. A run leaves its own in `rust/target/tmp/rules.txt`.
const STORED: &str = "tests/expected/rules.txt";

/// What the library leaves for a job: the number, and the 256 bytes in rows.
fn shown(name: &str, job: &Job) -> String {
    let mut rule = [99; 256];
    let number = numbers::rule(&job.file(), &mut vec![9; WORK], &mut rule);
    let row = |row: &[u8]| {
        let cells: Vec<_> = row.iter().map(|cell| format!("{cell:2}")).collect();
        cells.join(" ") + "\n"
    };
    let rows: String = rule.chunks(16).map(row).collect();
    format!("{name}: {number:x}\n{rows}")
}

#[test]
fn rules_of_trial_jobs_are_those_stored_byte_for_byte() {
    let jobs = [
        ("PAIR", pair()),
        ("LOOP", in_loop()),
        ("TURN", turn()),
        ("sixteen", sixteen()),
    ];
    let text: String = jobs.iter().map(|(name, job)| shown(name, job)).collect();
    let seen = Path::new(env!("CARGO_TARGET_TMPDIR")).join("rules.txt");
    fs::write(&seen, &text).expect("the rules are written");
    let stored = Path::new(env!("CARGO_MANIFEST_DIR")).join(STORED);
    let stored = fs::read_to_string(stored).expect("the stored file is there");
    for (line, wanted) in text.lines().zip(stored.lines()) {
        assert_eq!(line, wanted, "all rules are in {}", seen.display());
    }
    assert_eq!(text.len(), stored.len(), "{}", seen.display());
}

/// Asks for this number and these bytes, the others of 256 zero, with spaces and with zeros before the file's numbers.
fn taken(job: &Job, number: u64, cells: impl Fn(usize, usize) -> u8) {
    let wanted: Vec<_> = (0..256)
        .map(|place| cells(place / 16, place % 16))
        .collect();
    for library in [GUARDED, WRAPPER] {
        let mut memory = Memory::new(library);
        for file in [job.file(), zero_filled(job.file())] {
            let seen = memory.call(&file, WORK, 256).unwrap();
            assert_eq!(seen.number, number);
            assert_eq!(seen.table().as_ref(), Some(&wanted));
            assert_eq!(seen.cleared, WORK);
        }
    }
    let second = Case::of(job).wanted(None);
    assert_eq!(
        (second.number, second.table()),
        (number, Some(wanted)),
        "by the second implementation"
    );
}

#[test]
fn rule_of_pair_is_its_three_rows_and_zeros() {
    let rows = [[1, 0, 0], [1, 0, 2], [1, 0, 2]];
    let cell = |row: usize, column: usize| {
        let cells = rows.get(row).map(|row: &[u8; 3]| row.get(column));
        cells.flatten().copied().unwrap_or(0)
    };
    // 2^48 + 3 * 2^32 + 3 * 2^16 + 4
    taken(&pair(), 0x1_0003_0003_0004, cell);
    assert_eq!(ACCEPTED + (3 << 32) + (3 << 16) + 4, 0x1_0003_0003_0004);
}

#[test]
fn rule_of_sixteen_states_and_symbols_fills_every_cell() {
    let cell = |row: usize, column: usize| ((3 * row + 5 * column + 1) % 16) as u8;
    taken(&sixteen(), 0x1_0010_0010_8009, cell);
}

/// A job with one plain node, and as many states and symbols; every cell leads to the last state.
fn to_the_last(states: u64, symbols: u64, finals: impl Fn(u64) -> u64) -> Job {
    Job {
        symbols,
        finals: (0..states).map(finals).collect(),
        next: (0..states)
            .map(|_| (0..symbols).map(|_| states - 1).collect())
            .collect(),
        nodes: vec![Node {
            kind: PLAIN,
            value: 0,
            entry: 1,
            exit: 0,
            after: 0,
        }],
        edges: vec![],
    }
}

#[test]
fn every_count_of_states_and_symbols_has_its_cells_and_all_others_zero() {
    for states in 1..=16 {
        for symbols in 1..=16 {
            let number = ACCEPTED + (states << 32) + (symbols << 16);
            let cell = |row: usize, column: usize| match (row as u64, column as u64) {
                (row, column) if row < states && column < symbols => states as u8 - 1,
                _ => 0,
            };
            taken(&to_the_last(states, symbols, |_| 0), number, cell);
            let all = (1 << states) - 1;
            taken(&to_the_last(states, symbols, |_| 1), number + all, cell);
        }
    }
}

#[test]
fn every_final_state_is_its_bit() {
    for states in [1, 2, 15, 16] {
        for one in 0..states {
            let number = ACCEPTED + (states << 32) + (2 << 16) + (1 << one);
            let cell = |row: usize, column: usize| match (row as u64, column) {
                (row, 0 | 1) if row < states => states as u8 - 1,
                _ => 0,
            };
            taken(
                &to_the_last(states, 2, |state| u64::from(state == one)),
                number,
                cell,
            );
        }
    }
}
