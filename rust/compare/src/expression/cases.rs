//! Random calls: expressions of few and of many states, and calls with faults.
use super::memory::Symbols;
use crate::compared::Compared;
use crate::on_text::OnText;
use crate::rulebuffer::wrong_length;
use dapohiru_generators::expressions;
use dapohiru_generators::random::Random;
use dapohiru_second::expression::{make, Call, Outcome};
use dapohiru_second::rulebuffer::RULE;
use dapohiru_second::slip::Slip;

/// One call: an expression, the A that is given with it, and the length of the rule buffer.
#[derive(Clone, Debug)]
pub struct Case {
    pub text: Vec<u8>,
    pub symbols: u64,
    pub rule_len: usize,
}

impl Case {
    /// A text as it is, with a rule buffer of the right length.
    pub fn of(text: &[u8], symbols: u64) -> Self {
        Case {
            text: text.to_vec(),
            symbols,
            rule_len: RULE,
        }
    }

    /// A call with the faults that these refusals name, 13, 20 and 21.
    pub fn with_faults(random: &mut Random, symbols: u64, faults: &[u64]) -> Self {
        let has = |number: u64| faults.contains(&number);
        let sound = match has(21) {
            true => too_many(random, symbols),
            false => expressions::sound(random, symbols),
        };
        let mut case = Case::of(&sound, symbols);
        match has(20) {
            true if random.once_in(3) => {
                case.symbols = expressions::wrong_symbols(random, symbols);
            }
            true => case.text = expressions::refused(random, symbols, &sound),
            false => {}
        }
        if has(13) {
            let states = random.between(1, 16) as usize;
            case.rule_len = wrong_length(random, states, symbols as usize);
        }
        case
    }
}

/// An expression of more than 16 states: 15 letters or more that follow one another.
fn too_many(random: &mut Random, symbols: u64) -> Vec<u8> {
    loop {
        let text = expressions::many_states(random, symbols);
        if Case::of(&text, symbols).wanted(None).number == 21 {
            return text;
        }
    }
}

impl OnText for Case {
    type Given = Symbols;

    fn text(&self) -> &[u8] {
        &self.text
    }

    fn given(&self) -> Symbols {
        Symbols(self.symbols)
    }

    fn rule_len(&self) -> usize {
        self.rule_len
    }

    fn outcome(&self, slip: Option<Slip>) -> Outcome {
        let call = Call {
            text: &self.text,
            symbols: self.symbols,
            rule_len: self.rule_len,
        };
        make(&call, slip)
    }
}

/// The calls of some expressions for one A: sound ones, one with many states, damaged ones, with a byte that could be
/// taken for another, too long, with a letter past A, and with each fault and with several.
pub fn cases(random: &mut Random) -> Vec<Case> {
    let symbols = expressions::symbols(random);
    let sound = expressions::sound(random, symbols);
    let many = expressions::many_states(random, symbols);
    let mut cases = vec![
        Case::of(&sound, symbols),
        Case::of(&many, symbols),
        Case::of(&expressions::damaged(random, symbols, &sound), symbols),
        Case::of(&expressions::damaged(random, symbols, &many), symbols),
        Case::of(&expressions::lengthened(random, &sound), symbols),
        Case::of(&expressions::lengthened(random, &many), symbols),
        Case::of(
            &expressions::with_letter_past(random, symbols, &many),
            symbols,
        ),
    ];
    for _ in 0..3 {
        cases.push(Case::of(&expressions::misread(random, &sound), symbols));
    }
    for faults in [&[13][..], &[20], &[20], &[21]] {
        cases.push(Case::with_faults(random, symbols, faults));
    }
    let faults: Vec<_> = (0..3).map(|_| random.pick(&[13, 20, 21])).collect();
    cases.push(Case::with_faults(random, symbols, &faults));
    cases
}
