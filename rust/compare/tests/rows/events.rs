//! The rule that rows make, in the event step and in a job file: it is never refused, its steps are those of the rows,
//! and the call for a job's rule gives it back.
use crate::agreement::painted;
use dapohiru::numbers::ACCEPTED;
use dapohiru::{Refusal, Rule};
use dapohiru_compare::library::{Library, GUARDED};
use dapohiru_compare::ruling::{every_step, taken};
use dapohiru_compare::wrapper::{self, WRAPPER};
use dapohiru_generators::random::Random;
use dapohiru_generators::rows;
use dapohiru_generators::samples::event;
use dapohiru_generators::zeros::filled;
use dapohiru_second::job::Job;
use dapohiru_second::rows::{text, Given};

/// A job with one node, an event of the last symbol, whose R lines are the cells of a table.
fn job_of(table: &[u8], given: Given) -> Job {
    let next = |state: u64| {
        let cells = table[16 * state as usize..].iter().copied();
        cells.map(u64::from).take(given.symbols as usize).collect()
    };
    let mut node = event(given.symbols - 1);
    node.entry = 1;
    Job {
        symbols: given.symbols,
        finals: (0..given.states)
            .map(|state| given.finals >> state & 1)
            .collect(),
        next: (0..given.states).map(next).collect(),
        nodes: vec![node],
        edges: vec![],
    }
}

/// The rule that the library makes from a text, with what was given.
fn made(library: Library, text: &[u8], given: Given) -> Rule {
    let Given {
        states,
        symbols,
        finals,
    } = given;
    let mut table = [0xa5; 256];
    let number = (library.rows)(text, states, symbols, finals, &mut table);
    assert_eq!(number, ACCEPTED);
    Rule {
        table,
        states,
        symbols,
        finals,
    }
}

#[test]
fn rule_of_rows_takes_every_step_and_is_the_rule_of_the_job_that_has_it() {
    let mut random = Random::of_this_run();
    let (mut alarms, mut steps) = (0, 0);
    for number in 0..2_000_u64 {
        let (given, rows) = match number % 20 {
            0 => rows::most_rows(&mut random),
            _ => {
                let given = rows::given(&mut random);
                (given, rows::rows(&mut random, given))
            }
        };
        let lent = filled(&mut random, text(&rows));
        let job = job_of(&painted(&rows), given);
        let file = filled(&mut random, job.file());
        let total = random.pick(&[0, 255, u64::MAX - 1, u64::MAX]);
        for library in [GUARDED, WRAPPER] {
            let rule = made(library, &lent, given);
            alarms += every_step(library, &job, &rule, total);
            steps += given.states * given.symbols;
            // the same 256 bytes and numbers, through a job file
            assert_eq!(taken(library, &file), Ok(rule), "sample {number}");
        }
    }
    println!("{steps} steps, {alarms} alarms");
    assert!(steps > 50_000 && alarms > 10_000);
}

#[test]
fn wrapper_gives_the_rule_whole_or_the_refusal() {
    let mut random = Random::of_this_run();
    for _ in 0..500 {
        let given = rows::given(&mut random);
        let Given {
            states,
            symbols,
            finals,
        } = given;
        let mut some = rows::rows(&mut random, given);
        let lent = text(&some);
        let rule = wrapper::rows(&lent, states, symbols, finals);
        assert_eq!(rule, Ok(made(GUARDED, &lent, given)));
        let cut = &lent[..lent.len() - 1];
        let refused = |number| Err(Refusal(number));
        assert_eq!(wrapper::rows(cut, states, symbols, finals), refused(17));
        assert_eq!(wrapper::rows(&lent, 17, symbols, finals), refused(17));
        let past = finals | 1 << states;
        assert_eq!(wrapper::rows(&lent, states, symbols, past), refused(17));
        assert_eq!(wrapper::rows(b"", states, symbols, finals), refused(19));
        rows::name_twice(&mut random, given, &mut some);
        let twice = text(&some);
        assert_eq!(wrapper::rows(&twice, states, symbols, finals), refused(18));
    }
}
