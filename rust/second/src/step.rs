//! The event step a second time, written from document 01 alone. It shares nothing with the library.
//! A slip can be switched on, to see that a comparison notices it.

/// The answer to one call.
#[derive(Clone, Copy, Debug, PartialEq, Eq)]
pub enum Answer {
    Quiet,
    Alarm,
    Refused(u64),
}

crate::slips! {
    /// Slips of the event step.
    ALL {
        /// The alarm total goes from 2^64-1 to 0.
        TotalWraps,
        /// The alarm total rises at quiet events too.
        TotalRisesOnQuiet,
        /// The alarm total never rises.
        TotalNeverRises,
        /// An event is an alarm only when the state changes.
        AlarmOnlyOnChange,
        /// An event is an alarm only when the state was not final before.
        AlarmOnlyOnEntry,
        /// An event is an alarm when the state left is final.
        AlarmByStateLeft,
        /// No event is an alarm.
        AlwaysQuiet,
        /// The state stays as it is.
        NeverMoves,
        /// 14 is tested before 13.
        SymbolBeforeRule,
        /// 15 is tested before 14.
        RecordBeforeSymbol,
        /// The record's length is tested before 13.
        RecordLengthFirst,
        /// A refusal for the symbol writes the record.
        RefusalWritesRecord,
        /// A next state in a row past S is tested.
        CellPastStatesTested,
        /// A next state in a column past A is tested.
        CellPastSymbolsTested,
        /// A next state of S is accepted.
        NextStateOfStatesAccepted,
        /// A final state of S or more is accepted.
        FinalPastStatesAccepted,
        /// The final set is tested up to bit 15 only.
        FinalsTestedToBit15,
        /// S = 0 is accepted.
        NoStatesAccepted,
        /// A = 0 is accepted.
        NoSymbolsAccepted,
        /// S = 17 is accepted.
        SeventeenStatesAccepted,
        /// A = 17 is accepted.
        SeventeenSymbolsAccepted,
        /// A symbol of A is accepted.
        SymbolOfSymbolsAccepted,
        /// The symbol's lowest byte alone is looked at.
        SymbolLowestByteOnly,
        /// A record whose state is S is accepted.
        StateOfStatesAccepted,
        /// The lowest byte of the record's state alone is looked at.
        StateLowestByteOnly,
        /// A rule of any length is accepted.
        RuleLengthNotTested,
        /// A record of any length is accepted.
        RecordLengthNotTested,
        /// The table is read by columns.
        ColumnsForRows,
        /// The record's numbers have their highest byte first.
        HighestByteFirst,
    }
}

/// The event step, with one slip or with none.
#[derive(Clone, Copy)]
pub struct Second {
    pub slip: Option<Slip>,
}

impl Second {
    fn slips(self, slip: Slip) -> bool {
        self.slip == Some(slip)
    }

    /// The next state that the table has for a state and a symbol; 0 outside the bytes given.
    fn cell(self, rule: &[u8], state: u64, symbol: u64) -> u64 {
        let (row, column) = if self.slips(Slip::ColumnsForRows) {
            (symbol, state)
        } else {
            (state, symbol)
        };
        rule.get((16 * row + column) as usize)
            .map_or(0, |&next| next.into())
    }

    /// What 13 asks of a rule.
    fn is_rule(self, rule: &[u8], states: u64, symbols: u64, finals: u64) -> bool {
        let count = |number: u64, zero: Slip, seventeen: Slip| match number {
            0 => self.slips(zero),
            1..=16 => true,
            17 => self.slips(seventeen),
            _ => false,
        };
        if rule.len() != 256 && !self.slips(Slip::RuleLengthNotTested) {
            return false;
        }
        if !count(
            states,
            Slip::NoStatesAccepted,
            Slip::SeventeenStatesAccepted,
        ) || !count(
            symbols,
            Slip::NoSymbolsAccepted,
            Slip::SeventeenSymbolsAccepted,
        ) {
            return false;
        }
        let rows = if self.slips(Slip::CellPastStatesTested) {
            16
        } else {
            states
        };
        let columns = if self.slips(Slip::CellPastSymbolsTested) {
            16
        } else {
            symbols
        };
        for state in 0..rows {
            for symbol in 0..columns {
                let next = self.cell(rule, state, symbol);
                let last_too = self.slips(Slip::NextStateOfStatesAccepted) && next == states;
                if next >= states && !last_too {
                    return false;
                }
            }
        }
        let bits = if self.slips(Slip::FinalsTestedToBit15) {
            16
        } else {
            64
        };
        let is_final = |state: u64| finals >> state & 1 == 1;
        self.slips(Slip::FinalPastStatesAccepted) || !(states..bits).any(is_final)
    }

    /// One of the record's two numbers, from the byte at `start` on; a byte that is not there counts as 0.
    fn number(self, record: &[u8], start: usize) -> u64 {
        (0..8).fold(0, |value, k| {
            let place = if self.slips(Slip::HighestByteFirst) {
                7 - k
            } else {
                k
            };
            let byte: u64 = record.get(start + place).map_or(0, |&byte| byte.into());
            value | byte << (8 * k)
        })
    }

    /// Writes one of the record's two numbers, from the byte at `start` on.
    fn put(self, record: &mut [u8], start: usize, value: u64) {
        for k in 0..8 {
            let place = if self.slips(Slip::HighestByteFirst) {
                7 - k
            } else {
                k
            };
            if let Some(byte) = record.get_mut(start + place) {
                *byte = (value >> (8 * k) & 255) as u8;
            }
        }
    }

    /// Takes one event on the record.
    pub fn event(
        self,
        rule: &[u8],
        states: u64,
        symbols: u64,
        finals: u64,
        symbol: u64,
        record: &mut [u8],
    ) -> Answer {
        let symbol = if self.slips(Slip::SymbolLowestByteOnly) {
            symbol & 255
        } else {
            symbol
        };
        let state = match self.number(record, 0) {
            state if self.slips(Slip::StateLowestByteOnly) => state & 255,
            state => state,
        };
        let no_rule = !self.is_rule(rule, states, symbols, finals);
        let no_symbol =
            symbol >= symbols && !(self.slips(Slip::SymbolOfSymbolsAccepted) && symbol == symbols);
        let length = record.len() != 16 && !self.slips(Slip::RecordLengthNotTested);
        let no_state =
            state >= states && !(self.slips(Slip::StateOfStatesAccepted) && state == states);

        let mut tests = vec![(no_rule, 13), (no_symbol, 14), (length || no_state, 15)];
        match self.slip {
            Some(Slip::SymbolBeforeRule) => tests.swap(0, 1),
            Some(Slip::RecordBeforeSymbol) => tests.swap(1, 2),
            Some(Slip::RecordLengthFirst) => tests.insert(0, (length, 15)),
            _ => {}
        }
        if let Some(&(_, number)) = tests.iter().find(|(applies, _)| *applies) {
            if number == 14 && self.slips(Slip::RefusalWritesRecord) {
                self.put(record, 0, 0);
            }
            return Answer::Refused(number);
        }

        let next = self.cell(rule, state, symbol);
        let is_final = |state: u64| state < 64 && finals >> state & 1 == 1;
        let alarm = match self.slip {
            Some(Slip::AlarmOnlyOnChange) => is_final(next) && next != state,
            Some(Slip::AlarmOnlyOnEntry) => is_final(next) && !is_final(state),
            Some(Slip::AlarmByStateLeft) => is_final(state),
            Some(Slip::AlwaysQuiet) => false,
            _ => is_final(next),
        };
        let total = self.number(record, 8);
        let raised = if total == u64::MAX && !self.slips(Slip::TotalWraps) {
            total
        } else {
            total.wrapping_add(1)
        };
        if !self.slips(Slip::NeverMoves) {
            self.put(record, 0, next);
        }
        if (alarm && !self.slips(Slip::TotalNeverRises)) || self.slips(Slip::TotalRisesOnQuiet) {
            self.put(record, 8, raised);
        }
        if alarm {
            Answer::Alarm
        } else {
            Answer::Quiet
        }
    }
}
