//! Every step that the library takes under a rule.
use crate::library::Library;
use dapohiru::numbers::{ACCEPTED, ALARM};
use dapohiru::{Record, Rule};
use dapohiru_second::job::Job;

/// Takes every symbol in every state of a job on a record with this total, by a rule that is to be the job's; and, past
/// both, one that the job lacks. Gives how many alarms there were.
pub fn every_step(library: Library, job: &Job, rule: &Rule, total: u64) -> u64 {
    let mut alarms = 0;
    let event = |state: u64, symbol: u64| {
        let mut record = Record {
            state,
            alarms: total,
        }
        .to_bytes();
        let number = (library.event)(
            &rule.table,
            rule.states,
            rule.symbols,
            rule.finals,
            symbol,
            &mut record,
        );
        (number, Record::from_bytes(record))
    };
    let (states, symbols) = (job.states() as u64, job.symbols);
    for state in 0..states {
        for symbol in 0..symbols {
            let next = job.next[state as usize][symbol as usize];
            let is_alarm = job.finals[next as usize] == 1;
            let raised = total.saturating_add(u64::from(is_alarm));
            let record = Record {
                state: next,
                alarms: raised,
            };
            let number = if is_alarm { ALARM } else { ACCEPTED };
            assert_eq!(event(state, symbol), (number, record), "{state}, {symbol}");
            alarms += u64::from(is_alarm);
        }
        for symbol in [symbols, 16, u64::MAX] {
            let left = Record {
                state,
                alarms: total,
            };
            assert_eq!(event(state, symbol), (14, left), "{state}, {symbol}");
        }
    }
    for state in [states, 16, u64::MAX] {
        for symbol in 0..symbols {
            let left = Record {
                state,
                alarms: total,
            };
            assert_eq!(event(state, symbol), (15, left), "{state}, {symbol}");
        }
    }
    alarms
}
