//! Random calls: rows that name every pair just once, and calls with faults.
use crate::on_file::OnFile;
use crate::on_text::OnText;
use crate::rulebuffer::wrong_length;
use dapohiru_generators::random::Random;
use dapohiru_generators::rows;
use dapohiru_second::rows::{make, text, Call, Given, Outcome, Row};
use dapohiru_second::rulebuffer::RULE;
use dapohiru_second::slip::Slip;

/// One call: a text of rows, what is given with them, and the length of the rule buffer.
#[derive(Clone, Debug)]
pub struct Case {
    pub text: Vec<u8>,
    pub given: Given,
    pub rule_len: usize,
}

impl OnFile for Case {
    fn file(&mut self) -> &mut Vec<u8> {
        &mut self.text
    }
}

impl Case {
    /// A text as it is, with a rule buffer of the right length.
    pub fn of_text(given: Given, text: Vec<u8>) -> Self {
        Case {
            text,
            given,
            rule_len: RULE,
        }
    }

    /// Rows, with a rule buffer of the right length.
    pub fn of(given: Given, rows: &[Row]) -> Self {
        Case::of_text(given, text(rows))
    }

    /// Rows that name every pair just once, changed so that the call has the faults that these refusals name, 13 and 17
    /// to 19. 18 and 19 together ask for two pairs.
    pub fn with_faults(random: &mut Random, given: Given, sound: &[Row], faults: &[u64]) -> Self {
        let mut rows = sound.to_vec();
        let has = |number: u64| faults.contains(&number);
        if has(19) {
            rows::leave_out(random, &mut rows);
        }
        if has(18) {
            rows::name_twice(random, given, &mut rows);
        }
        let mut case = Case::of(given, &rows).with_zeros(random);
        match has(17) {
            true if rows.is_empty() || random.once_in(3) => {
                case.given = rows::wrong_given(random, given);
            }
            true => case.text = rows::refused(random, given, &rows),
            false => {}
        }
        if has(13) {
            let (states, symbols) = (given.states as usize, given.symbols as usize);
            case.rule_len = wrong_length(random, states, symbols);
        }
        case
    }
}

impl OnText for Case {
    type Given = Given;

    fn text(&self) -> &[u8] {
        &self.text
    }

    fn given(&self) -> Given {
        self.given
    }

    fn rule_len(&self) -> usize {
        self.rule_len
    }

    fn outcome(&self, slip: Option<Slip>) -> Outcome {
        let call = Call {
            text: &self.text,
            given: self.given,
            rule_len: self.rule_len,
        };
        make(&call, slip)
    }
}

/// The calls of some rows: as they are, damaged, with a byte that could be taken for another, with each fault and with
/// several, and without a row.
pub fn cases(random: &mut Random) -> Vec<Case> {
    let (given, sound) = match random.below(16) {
        0 => rows::most_rows(random),
        _ => {
            let given = rows::given(random);
            (given, rows::rows(random, given))
        }
    };
    let mut cases = vec![
        Case::of(given, &sound).with_zeros(random),
        Case::of_text(given, rows::damaged(random, &sound)),
    ];
    for _ in 0..4 {
        cases.push(Case::of_text(given, rows::misread(random, &sound)));
    }
    for faults in [&[13][..], &[17], &[17], &[18], &[19]] {
        cases.push(Case::with_faults(random, given, &sound, faults));
    }
    let is_one_pair = given.states * given.symbols == 1;
    for _ in 0..2 {
        let mut faults: Vec<_> = (0..3).map(|_| random.pick(&[13, 17, 18, 19])).collect();
        if is_one_pair && faults.contains(&18) {
            faults.retain(|&number| number != 19);
        }
        cases.push(Case::with_faults(random, given, &sound, &faults));
    }
    let of_none = match random.below(2) {
        0 => given,
        _ => rows::wrong_given(random, given),
    };
    cases.push(Case::of(of_none, &[]));
    cases
}
