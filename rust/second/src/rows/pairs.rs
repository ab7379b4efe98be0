//! What 18 and 19 ask of each pair, and the next state that it has.
use super::{Given, Row};
use crate::rulebuffer::{RuleBuffer, RULE};
use crate::slip::Slip;

/// A pair of a state and a symbol, with the places of the rows that name it.
struct Pair {
    state: u64,
    symbol: u64,
    rows: Vec<usize>,
}

/// The pairs of states and symbols, and the rows that name them.
pub(super) struct Pairs<'a> {
    slip: Option<Slip>,
    given: Given,
    rows: &'a [Row],
    all: Vec<Pair>,
}

impl<'a> Pairs<'a> {
    /// All pairs of the states and symbols given.
    pub fn of(slip: Option<Slip>, given: Given, rows: &'a [Row]) -> Self {
        let mut pairs = Pairs::none_of(slip, given, rows);
        for state in 0..given.states {
            for symbol in 0..given.symbols {
                let rows = pairs.naming(state, symbol);
                pairs.all.push(Pair {
                    state,
                    symbol,
                    rows,
                });
            }
        }
        pairs
    }

    /// No pair.
    pub fn none_of(slip: Option<Slip>, given: Given, rows: &'a [Row]) -> Self {
        Pairs {
            slip,
            given,
            rows,
            all: Vec::new(),
        }
    }

    /// The places of the rows that name a pair: its state is from a row's first to its last, and its symbol is.
    fn naming(&self, state: u64, symbol: u64) -> Vec<usize> {
        let names = |row: &Row| {
            let ([first, last], [low, high]) = (row.states, row.symbols);
            let of_state = match self.slip {
                Some(Slip::LastRowStateLeftOut) => first <= state && state < last,
                Some(Slip::FirstRowStateOnly) => first == state,
                _ => first <= state && state <= last,
            };
            let of_symbol = match self.slip {
                Some(Slip::LastRowSymbolLeftOut) => low <= symbol && symbol < high,
                Some(Slip::FirstRowSymbolOnly) => low == symbol,
                _ => low <= symbol && symbol <= high,
            };
            of_state && of_symbol
        };
        let rows = self.rows.iter().enumerate();
        rows.filter(|(_, row)| names(row))
            .map(|(place, _)| place)
            .collect()
    }

    /// How many pairs the rows name too many, or too few below 0.
    fn too_many(&self) -> i64 {
        let more = |pair: &Pair| pair.rows.len() as i64 - 1;
        self.all.iter().map(more).sum()
    }

    /// 18: two rows name one pair.
    pub fn twice(&self) -> Option<u64> {
        let is_twice = |Pair { rows, .. }: &Pair| {
            let next = |place: usize| self.rows[place].next;
            let mut both = rows.windows(2);
            match self.slip {
                Some(Slip::LastRowCounts | Slip::FirstRowCounts) => false,
                Some(Slip::AgreeingRowsAccepted) => both.any(|two| next(two[0]) != next(two[1])),
                Some(Slip::SameRowTwiceAccepted) => {
                    both.any(|two| self.rows[two[0]] != self.rows[two[1]])
                }
                Some(Slip::NeighboursHeldTogetherOnly) => both.any(|two| two[0] + 1 == two[1]),
                Some(Slip::TwiceTestedByZero) => both.any(|two| next(two[0]) != 0),
                _ => rows.len() > 1,
            }
        };
        let refused = match self.slip {
            Some(Slip::PairsOnlyCounted) => self.too_many() > 0,
            _ => self.all.iter().any(is_twice),
        };
        let number = match self.slip {
            Some(Slip::TwiceAs17) => 17,
            Some(Slip::TwiceAs19) => 19,
            _ => 18,
        };
        refused.then_some(number)
    }

    /// 19: a pair has no row.
    pub fn none(&self) -> Option<u64> {
        let Given {
            states, symbols, ..
        } = self.given;
        let has_none = |pair: &Pair| {
            let is_last = (pair.state, pair.symbol) == (states - 1, symbols - 1);
            let is_tested = match self.slip {
                Some(Slip::PairWithoutRowGoesTo0 | Slip::PairWithoutRowStays) => false,
                Some(Slip::NoRowsAccepted) => !self.rows.is_empty(),
                Some(Slip::LastPairNotTested) => !is_last,
                Some(Slip::FirstStateNotTested) => pair.state > 0,
                _ => true,
            };
            is_tested && pair.rows.is_empty()
        };
        let refused = match self.slip {
            Some(Slip::PairsOnlyCounted) => self.too_many() < 0,
            _ => self.all.iter().any(has_none),
        };
        let number = match self.slip {
            Some(Slip::NoneAs17) => 17,
            Some(Slip::NoneAs18) => 18,
            _ => 19,
        };
        refused.then_some(number)
    }

    /// The next state of a pair: "every cell holds the next state of its one row".
    fn next(&self, pair: &Pair) -> u64 {
        let row = match self.slip {
            Some(Slip::FirstRowCounts) => pair.rows.first(),
            _ => pair.rows.last(),
        };
        match row {
            Some(&place) => self.rows[place].next,
            None if self.slip == Some(Slip::PairWithoutRowStays) => pair.state,
            None => 0,
        }
    }

    /// The bytes of the rule.
    pub fn table(&self, rule: RuleBuffer) -> Vec<Option<u8>> {
        let (states, symbols) = (self.given.states as usize, self.given.symbols as usize);
        let next = |state: usize, symbol: usize| self.next(&self.all[symbols * state + symbol]);
        rule.table(states, symbols, next)
    }

    /// The cells of pairs that have a row, and no others.
    pub fn named_cells(&self) -> Vec<Option<u8>> {
        let mut cells = vec![None; RULE];
        for pair in &self.all {
            let place = 16 * pair.state + pair.symbol;
            let is_named = !pair.rows.is_empty();
            if let Some(cell) = cells.get_mut(place as usize) {
                *cell = is_named.then(|| self.next(pair) as u8);
            }
        }
        cells
    }
}
