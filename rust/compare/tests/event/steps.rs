//! The event step by the wrapper, on guarded buffers, and the PAIR rule.
use dapohiru::Rule;
use dapohiru_compare::step;
use dapohiru_compare::wrapper::WRAPPER;
use dapohiru_generators::events::Call;
use dapohiru_second::step::{Answer, Second};

/// What the library answers, with the record altered as it does.
pub fn answer(call: &mut Call) -> Answer {
    step::answer(WRAPPER, call)
}

/// What a comparison of one call finds: the library's answer, or in words how the two differ.
pub fn compare(second: Second, call: &Call) -> Result<Answer, String> {
    step::compare(WRAPPER, second, call)
}

/// The PAIR rule of document 01: symbols seal, reopen and write.
pub fn pair() -> Rule {
    let mut table = [0; 256];
    for (state, next) in [[1, 0, 0], [1, 0, 2], [1, 0, 2]].into_iter().enumerate() {
        table[16 * state..16 * state + 3].copy_from_slice(&next);
    }
    Rule {
        table,
        states: 3,
        symbols: 3,
        finals: 4,
    }
}
