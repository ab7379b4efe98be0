//! A rule made from an expression as a call (document 02, "Rules as expressions"): its refusals in order, its answer, and
//! what it leaves in the rule buffer. Which events alarm is told by derivatives of the expression (`alarms`), and which
//! state a list of events leads to by derivatives of the expression with each letter marked by its place (`places`,
//! `make`).
mod derivatives;
mod states;
mod text;
mod words;

use crate::rulebuffer::RuleBuffer;
use crate::slip::Slip;
use derivatives::Terms;
use states::States;
use std::collections::BTreeSet;
use text::{Reading, Tree};

pub use crate::rulebuffer::{Answer, Outcome};

/// The greatest length of an expression.
pub const LONGEST: usize = 64;
/// The most states of a rule.
pub const MOST_STATES: usize = 16;

/// One call.
#[derive(Clone, Copy)]
pub struct Call<'a> {
    pub text: &'a [u8],
    pub symbols: u64,
    /// The length of the rule buffer.
    pub rule_len: usize,
}

/// Whether the events so far form a word of the expression's language, after each event; nothing for a text outside the
/// grammar. The words are those of the expression as it is, without places.
pub fn alarms(text: &[u8], events: &[u64]) -> Option<Vec<bool>> {
    let tree = Reading::of(None).tree(text)?;
    let mut terms = Terms::default();
    let mut rest = terms.unmarked(&tree);
    let alarm = |&event: &u64| {
        rest = terms.by_symbol(rest, event);
        terms.has_empty_word(rest)
    };
    Some(events.iter().map(alarm).collect())
}

/// Whether these events form a word of the expression's language, by the language's definition; nothing for a text
/// outside the grammar.
pub fn is_word(text: &[u8], events: &[u64]) -> Option<bool> {
    let tree = Reading::of(None).tree(text)?;
    Some(words::is_word(&tree, events))
}

/// The places of the letters that the last of these events, one or more, can stand for in a word of the language that
/// begins with them; nothing for a text outside the grammar.
pub fn places(text: &[u8], events: &[u64]) -> Option<BTreeSet<usize>> {
    let tree = Reading::of(None).tree(text)?;
    let mut states = States::of(None, &tree, 16);
    let mut ways = states.start();
    for &event in events {
        ways = states.after(&ways, event);
    }
    Some(ways.into_iter().filter_map(|way| way.last).collect())
}

/// What a call leaves, with one slip or with none.
pub fn make(call: &Call, slip: Option<Slip>) -> Outcome {
    let making = Making { slip };
    let rule = RuleBuffer {
        len: call.rule_len,
        slip,
    };
    let (of_length, (of_text, states)) = (rule.refusal(), making.states(call));
    let tests = match slip {
        Some(Slip::RuleLengthAfterExpression) if of_text != Some(21) => [of_text, of_length],
        Some(Slip::RuleLengthAfterStates) => [of_text, of_length],
        _ => [of_length, of_text],
    };
    let refusal = tests.into_iter().flatten().next();
    let is_written = match slip {
        Some(Slip::WrongLengthWritten) => of_text.is_none(),
        Some(Slip::ManyStatesWritten) => refusal.is_none() || refusal == Some(21),
        _ => refusal.is_none(),
    };
    let answer = match (refusal, &states) {
        (None, Some(states)) => Answer::Made(states.added()),
        (refusal, _) => Answer::Refused(refusal.unwrap_or(0)),
    };
    let bytes = match states {
        Some(states) if is_written => states.table(rule),
        _ if making.slips(Slip::RefusalClearsRule) => vec![Some(0); call.rule_len],
        _ => Vec::new(),
    };
    rule.left(answer, bytes)
}

/// The call, with one slip or with none.
#[derive(Clone, Copy)]
struct Making {
    slip: Option<Slip>,
}

impl Making {
    fn slips(self, slip: Slip) -> bool {
        self.slip == Some(slip)
    }

    /// 20 or 21, and the states where there are some, with 21 too.
    fn states(self, call: &Call) -> (Option<u64>, Option<States>) {
        let outside = match self.slip {
            Some(Slip::ExpressionAs4) => 4,
            Some(Slip::ExpressionAs17) => 17,
            _ => 20,
        };
        let sound = self.symbols(call.symbols).zip(self.of_length(call.text));
        let read = sound.and_then(|(symbols, text)| {
            let tree = Reading::of(self.slip).tree(text)?;
            Some((symbols, tree))
        });
        let Some((symbols, tree)) = read else {
            return (Some(outside), None);
        };
        let is_past = tree.letters().iter().any(|letter| match self.slip {
            Some(Slip::LetterOfSymbolsAccepted) => letter.symbol > symbols,
            Some(Slip::LettersHeldAgainst16) => letter.symbol > 15,
            _ => letter.symbol >= symbols,
        });
        let is_long = call.text.len() > LONGEST;
        let of_text = match self.slip {
            Some(Slip::StatesBeforeLetters) if is_past => Some(20),
            Some(Slip::StatesBeforeLength) if is_long => Some(20),
            Some(Slip::LetterPastAs14) if is_past => return (Some(14), None),
            Some(Slip::LetterPastAs21) if is_past => return (Some(21), None),
            _ if is_past => return (Some(outside), None),
            _ => None,
        };
        let mut states = States::of(self.slip, &tree, symbols);
        states.number();
        let of_states = self.many(&tree, &states);
        (of_states.or(of_text), Some(states))
    }

    /// A, where it is one; only a slip alters it.
    fn symbols(self, symbols: u64) -> Option<u64> {
        let symbols = match self.slip {
            Some(Slip::ExpressionSymbolsCutTo8Bits) => symbols % (1 << 8),
            Some(Slip::ExpressionSymbolsCutTo16Bits) => symbols % (1 << 16),
            Some(Slip::ExpressionSymbolsCutTo32Bits) => symbols % (1 << 32),
            _ => symbols,
        };
        let most = match self.slip {
            Some(Slip::SixteenExpressionSymbolsRefused) => 15,
            Some(Slip::SeventeenExpressionSymbolsAccepted) => 17,
            _ => 16,
        };
        (1..=most).contains(&symbols).then_some(symbols)
    }

    /// The text, where its length is one of an expression; only a slip alters it.
    fn of_length(self, text: &[u8]) -> Option<&[u8]> {
        let text = match self.slip {
            Some(Slip::LongExpressionCut) => &text[..text.len().min(LONGEST)],
            Some(Slip::ExpressionLengthCutTo8Bits) => &text[..text.len() % 256],
            Some(Slip::ExpressionLengthCutTo16Bits) => &text[..text.len() % 65_536],
            _ => text,
        };
        let most = match self.slip {
            Some(Slip::LongestExpressionRefused) => LONGEST - 1,
            Some(Slip::Expression65Read | Slip::StatesBeforeLength) => LONGEST + 1,
            _ => LONGEST,
        };
        (text.len() <= most).then_some(text)
    }

    /// 21 where there are more than 16 states.
    fn many(self, tree: &Tree, states: &States) -> Option<u64> {
        let is_many = match self.slip {
            Some(Slip::ManyLettersAs21) => tree.letters().len() + 1 > MOST_STATES,
            Some(Slip::SeventeenExpressionStatesAccepted) => states.count() > MOST_STATES + 1,
            Some(Slip::SixteenExpressionStatesRefused) => states.count() > MOST_STATES - 1,
            Some(Slip::EmptySetNotCounted) => states.count_without_empty() > MOST_STATES,
            _ => states.count() > MOST_STATES,
        };
        let number = match self.slip {
            Some(Slip::ManyStatesAs17) => 17,
            Some(Slip::ManyStatesAs20) => 20,
            _ => 21,
        };
        is_many.then_some(number)
    }
}
