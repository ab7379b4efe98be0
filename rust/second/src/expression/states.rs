//! The states: the start, and for each list of events the places that its last event can stand for, numbered as first
//! met.
use super::derivatives::{Id, Terms, NO_WORD};
use super::text::{Letter, Tree};
use crate::rulebuffer::RuleBuffer;
use crate::slip::Slip;
use std::collections::{BTreeMap, BTreeSet};

/// No more states are numbered: enough for every answer, with slips too.
const ENOUGH: usize = 18;

/// A way to take some events as letters: the place of the last of them, none where there is no event, and what may follow.
#[derive(Clone, Copy, Debug, PartialEq, Eq, PartialOrd, Ord)]
pub(super) struct Way {
    pub last: Option<usize>,
    rest: Id,
}

/// The ways to take a list of events.
pub(super) type Ways = BTreeSet<Way>;

/// The places of letters that an event can stand for.
type Places = BTreeSet<usize>;

/// The states of an expression, with one slip or with none.
pub(super) struct States {
    slip: Option<Slip>,
    symbols: u64,
    terms: Terms,
    letters: Vec<Letter>,
    whole: Id,
    /// For each state the ways of the first list of events that leads to it, with their places.
    met: Vec<(Ways, Places)>,
    next: BTreeMap<(usize, u64), usize>,
}

impl States {
    /// No state of an expression so far.
    pub fn of(slip: Option<Slip>, tree: &Tree, symbols: u64) -> Self {
        let mut terms = Terms::default();
        States {
            slip,
            symbols,
            letters: tree.letters(),
            whole: terms.marked(tree),
            terms,
            met: Vec::new(),
            next: BTreeMap::new(),
        }
    }

    fn slips(&self, slip: Slip) -> bool {
        self.slip == Some(slip)
    }

    /// The one way to take no event.
    pub fn start(&self) -> Ways {
        Ways::from([Way {
            last: None,
            rest: self.whole,
        }])
    }

    /// The ways to take an event after others: as each letter of its symbol that can follow, where a word goes on with
    /// it.
    pub fn after(&mut self, ways: &Ways, event: u64) -> Ways {
        let mut after = Ways::new();
        let of_event = |letter: &&Letter| letter.symbol == event;
        let letters: Vec<_> = self.letters.iter().filter(of_event).copied().collect();
        let mut all = ways.clone();
        if self.slips(Slip::WordBeginsAnywhere) {
            all.extend(self.start());
        }
        for letter in letters {
            for way in &all {
                let rest = self.terms.by(way.rest, letter);
                if rest != NO_WORD {
                    after.insert(Way {
                        last: Some(letter.place),
                        rest,
                    });
                }
            }
        }
        after
    }

    /// Whether the events with these ways form a word.
    fn is_word(&self, ways: &Ways) -> bool {
        let mut rests = ways.iter().map(|way| way.rest);
        match self.slip {
            Some(Slip::AlarmWhereWordBegins) => !ways.is_empty(),
            Some(Slip::AlarmWhereEveryWayEnds) => {
                !ways.is_empty() && rests.all(|rest| self.terms.has_empty_word(rest))
            }
            _ => rests.any(|rest| self.terms.has_empty_word(rest)),
        }
    }

    /// What is next on each symbol, and whether the events form a word.
    fn residual(&mut self, ways: &Ways) -> (Vec<Places>, bool) {
        let places = (0..self.symbols)
            .map(|event| self.after(ways, event))
            .map(|after| places(&after))
            .collect();
        (places, self.is_word(ways))
    }

    /// The state of these ways, if it is met already. The start is none that an event leads to.
    fn known(&mut self, ways: &Ways) -> Option<usize> {
        let slip = self.slip;
        match slip {
            Some(Slip::EmptySetIsStart) if ways.is_empty() => Some(0),
            Some(Slip::StartTakenForItsEqual) if self.follows(0) == self.residual(ways).0 => {
                Some(0)
            }
            Some(Slip::StatesOfOneResidualMerged) => {
                let wanted = self.residual(ways);
                (1..self.met.len()).find(|&state| {
                    let ways = self.met[state].0.clone();
                    self.residual(&ways) == wanted
                })
            }
            Some(Slip::SetsOfNextLetters) => {
                let (wanted, _) = self.residual(ways);
                (1..self.met.len()).find(|&state| self.follows(state) == wanted)
            }
            _ => {
                let wanted = places(ways);
                (1..self.met.len()).find(|&state| self.met[state].1 == wanted)
            }
        }
    }

    /// What is next on each symbol after a state.
    fn follows(&mut self, state: usize) -> Vec<Places> {
        let ways = self.met[state].0.clone();
        self.residual(&ways).0
    }

    /// Numbers the states as they are first met: breadth first, symbols ascending.
    pub fn number(&mut self) {
        let start = self.start();
        self.met.push((start, Places::new()));
        let mut state = 0;
        while state < self.met.len() && self.met.len() < ENOUGH {
            self.expand(state);
            state += 1;
        }
    }

    /// Meets the states that the events lead to from a state.
    fn expand(&mut self, state: usize) {
        let mut symbols: Vec<_> = (0..self.symbols).collect();
        if self.slips(Slip::SymbolsFalling) {
            symbols.reverse();
        }
        for symbol in symbols {
            if self.next.contains_key(&(state, symbol)) || self.met.len() >= ENOUGH {
                continue;
            }
            let from = self.met[state].0.clone();
            let ways = self.after(&from, symbol);
            if ways.is_empty() && self.slips(Slip::EmptySetStays) {
                self.next.insert((state, symbol), state);
                continue;
            }
            let known = self.known(&ways);
            let to = known.unwrap_or(self.met.len());
            self.next.insert((state, symbol), to);
            if known.is_none() {
                let places = places(&ways);
                self.met.push((ways, places));
                if self.slips(Slip::DepthFirst) {
                    self.expand(to);
                }
            }
        }
    }

    /// How many states there are, up to one more than can be numbered.
    pub fn count(&self) -> usize {
        self.met.len()
    }

    /// The same without the state of the empty set.
    pub fn count_without_empty(&self) -> usize {
        self.met.iter().filter(|(ways, _)| !ways.is_empty()).count()
    }

    /// The set of final states.
    fn finals(&self) -> u64 {
        let is_final = |state: usize| match self.slip {
            Some(Slip::StartFinal) => self.is_word(&self.met[state].0),
            _ => state > 0 && self.is_word(&self.met[state].0),
        };
        let bit = |state: usize| match self.slip {
            Some(Slip::ExpressionFinalsShifted) => 1 << (state + 1),
            Some(Slip::ExpressionFinalsFromTheHighest) => 1 << (self.count() - 1 - state),
            _ => 1 << state,
        };
        (0..self.count())
            .filter(|&state| is_final(state))
            .map(bit)
            .sum()
    }

    /// What is added to 2^48: the states times 2^16 and the final set.
    pub fn added(&self) -> u64 {
        let (states, finals) = (self.count() as u64, self.finals());
        match self.slip {
            Some(Slip::FinalsBeforeStates) => (finals << 16) + states,
            Some(Slip::NumberAsOfJob) => (states << 32) + (self.symbols << 16) + finals,
            Some(Slip::StatesLessOne) => ((states - 1) << 16) + finals,
            Some(Slip::StatesCutTo4Bits) => ((states % 16) << 16) + finals,
            Some(Slip::StatesLeftOut) => finals,
            _ => (states << 16) + finals,
        }
    }

    /// The bytes of the rule.
    pub fn table(&self, rule: RuleBuffer) -> Vec<Option<u8>> {
        let next = |state: usize, symbol: usize| {
            let to = self.next.get(&(state, symbol as u64));
            to.copied().unwrap_or(0) as u64
        };
        rule.table(self.count(), self.symbols as usize, next)
    }
}

/// The places of the last letters.
fn places(ways: &Ways) -> Places {
    ways.iter().filter_map(|way| way.last).collect()
}
