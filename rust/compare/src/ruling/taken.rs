//! The rule of a job as the library gives it, for the events of the job's walks.
use crate::library::Library;
use dapohiru::numbers::ACCEPTED;
use dapohiru::{Rule, RULE_LEN};
use dapohiru_second::reading::WORK;

/// The rule that the library takes from a file, with the three numbers of its answer; says so if it is refused.
pub fn taken(library: Library, file: &[u8]) -> Result<Rule, String> {
    let mut table = [0xa5; RULE_LEN];
    let number = (library.rule)(file, &mut vec![9; WORK], &mut table);
    match number.checked_sub(ACCEPTED) {
        Some(numbers) => Ok(Rule {
            table,
            states: numbers >> 32,
            symbols: numbers >> 16 & 0xffff,
            finals: numbers & 0xffff,
        }),
        None => Err(format!("the rule of a job is refused as {number}")),
    }
}
