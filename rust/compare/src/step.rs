//! One call of the event step by both.
use crate::library::Library;
use dapohiru::numbers::{ACCEPTED, ALARM};
use dapohiru_generators::events::Call;
use dapohiru_second::step::{Answer, Second};

/// What the library answers, with the record altered as it does.
pub fn answer(library: Library, call: &mut Call) -> Answer {
    match call.by(library.event) {
        ACCEPTED => Answer::Quiet,
        ALARM => Answer::Alarm,
        number => Answer::Refused(number),
    }
}

/// What the second implementation answers, with the record altered as it does.
fn second_answer(second: Second, call: &mut Call) -> Answer {
    call.by(|rule, states, symbols, finals, symbol, record| {
        second.event(rule, states, symbols, finals, symbol, record)
    })
}

/// What a comparison of one call finds: the library's answer, or in words how the two differ.
pub fn compare(library: Library, second: Second, call: &Call) -> Result<Answer, String> {
    let (mut ours, mut theirs) = (call.clone(), call.clone());
    let answer = answer(library, &mut ours);
    let wanted = second_answer(second, &mut theirs);
    let what = if answer != wanted {
        format!("the answer is {answer:?}, and {wanted:?} by the second implementation")
    } else if ours.record() != theirs.record() {
        format!(
            "after {answer:?} the record is {:?}, and {:?} by the second implementation",
            ours.record(),
            theirs.record()
        )
    } else if ours.around != theirs.around {
        format!("{answer:?} changes bytes beside the record")
    } else if ours.rule() != call.rule() {
        format!("{answer:?} changes the rule")
    } else {
        return Ok(answer);
    };
    Err(format!(
        "{what}; S {}, A {}, finals {:#x}, symbol {}, record {:?}, rule {:?}",
        call.states,
        call.symbols,
        call.finals,
        call.symbol,
        call.record(),
        call.rule()
    ))
}
