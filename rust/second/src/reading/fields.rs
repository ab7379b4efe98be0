//! What a field holds, and what the numbers of a line must not be.
use super::{Reader, Slip};

impl Reader {
    /// The number in a field of six columns: spaces, none or more, and then digits to the end.
    pub(crate) fn number(self, field: &[u8]) -> Option<u64> {
        let is_space = |byte: u8| {
            byte == b' '
                || (byte == b'\t' && self.slips(Slip::TabAccepted))
                || (byte == 0 && self.slips(Slip::NulAccepted))
        };
        let spaces = field.iter().take_while(|&&byte| is_space(byte)).count();
        let mut digits = &field[spaces..];
        if self.slips(Slip::SpaceAfterNumberAccepted) {
            digits = digits.trim_ascii_end();
        }
        if self.slips(Slip::PlusAccepted) {
            digits = digits.strip_prefix(b"+").unwrap_or(digits);
        }
        if digits.is_empty() {
            return self.slips(Slip::EmptyFieldAccepted).then_some(0);
        }
        let mut base = 10;
        if digits.len() > 1 && digits[0] == b'0' {
            match self.slip {
                Some(Slip::LeadingZeroRefused) => return None,
                Some(Slip::LeadingZeroOctal) => base = 8,
                Some(Slip::SpaceAfterZeroAccepted) => digits = past_zeros(digits),
                Some(Slip::SpaceBetweenZerosAccepted) if are_zeros(digits) => return Some(0),
                _ => {}
            }
        }
        let mut number = 0;
        for &digit in digits {
            let digit = match digit {
                b'8' | b'9' if base == 8 => return None,
                b'0'..=b'9' => u64::from(digit - b'0'),
                b':' if self.slips(Slip::ColonAccepted) => 10,
                b'/' if self.slips(Slip::SlashAccepted) => 0,
                _ => return None,
            };
            number = base * number + digit;
        }
        match self.slip {
            Some(Slip::LargeNumberAs4) if number > 65_535 => None,
            Some(Slip::NumberCutTo16Bits) => Some(number % 65_536),
            _ => Some(number),
        }
    }

    /// What 5 asks. This and the three below look at as many fields of a line as there are.
    pub(super) fn job_fault(self, numbers: &[u64]) -> bool {
        let limits = [
            (1, 16, Slip::NoStatesAccepted, Slip::SeventeenStatesAccepted),
            (
                1,
                16,
                Slip::NoSymbolsAccepted,
                Slip::SeventeenSymbolsAccepted,
            ),
            (1, 512, Slip::NoNodesAccepted, Slip::NodesByOneMoreAccepted),
            (0, 2048, Slip::NoEdgesRefused, Slip::EdgesByOneMoreAccepted),
        ];
        numbers.iter().zip(limits).any(|(&number, limit)| {
            let (mut low, mut high, below, above) = limit;
            if self.slips(below) {
                low = 1 - low;
            }
            if self.slips(above) {
                high += 1;
            }
            number < low || number > high
        })
    }

    /// What 6 asks of the line of this state.
    pub(super) fn rule_fault(self, state: u64, states: u64, numbers: &[u64]) -> bool {
        numbers.iter().enumerate().any(|(place, &number)| {
            let number = match self.slip {
                Some(Slip::StateCutTo8Bits) => number % 256,
                _ => number,
            };
            match place {
                0 => number != state && !self.slips(Slip::StateOrderNotTested),
                1 => number > 1 + u64::from(self.slips(Slip::FinalMark2Accepted)),
                _ => number >= states + u64::from(self.slips(Slip::NextStateOfStatesAccepted)),
            }
        })
    }

    /// What 7 asks of the line of this node.
    pub(super) fn node_fault(self, node: u64, states: u64, symbols: u64, numbers: &[u64]) -> bool {
        let names_more =
            |set: u64, count: u64, slip: Slip| set >> (count + u64::from(self.slips(slip))) != 0;
        numbers
            .iter()
            .enumerate()
            .any(|(place, &number)| match place {
                0 => number != node && !self.slips(Slip::NodeOrderNotTested),
                1 if self.slips(Slip::Kind3Refused) => number > 2,
                1 => number > 3 + u64::from(self.slips(Slip::Kind4Accepted)),
                2 => match numbers[1] {
                    0 => number != 0 && !self.slips(Slip::ValueAtPlainAccepted),
                    1 => number >= symbols + u64::from(self.slips(Slip::SymbolOfSymbolsAccepted)),
                    2 if self.slips(Slip::EmptyCallSetRefused) && number == 0 => true,
                    2 => names_more(number, symbols, Slip::CallSetPastSymbolsAccepted),
                    3 if self.slips(Slip::EmptyReentrantSetRefused) && number == 0 => true,
                    3 if self.slips(Slip::ReentrantValueIsSymbol) => number >= symbols,
                    3 => names_more(number, symbols, Slip::ReentrantSetPastSymbolsAccepted),
                    _ => false,
                },
                3 if self.slips(Slip::EntrySetOfSymbols) => number >> symbols != 0,
                3 => names_more(number, states, Slip::EntrySetPastStatesAccepted),
                4 if self.slips(Slip::EntryAtExitRefused) && numbers[3] != 0 => number != 0,
                4 => number > 1 + u64::from(self.slips(Slip::ExitMark2Accepted)),
                _ => match numbers[4] {
                    0 => number != 0 && !self.slips(Slip::AfterSetWithoutExitAccepted),
                    _ if self.slips(Slip::EmptyAfterSetRefused) && number == 0 => true,
                    _ => names_more(number, symbols, Slip::AfterSetPastSymbolsAccepted),
                },
            })
    }

    /// What 8 asks of the line after the one of the edge `before`.
    pub(super) fn edge_fault(
        self,
        before: Option<(u64, u64)>,
        nodes: u64,
        numbers: &[u64],
    ) -> bool {
        let nodes_with = |slip: Slip| nodes + u64::from(self.slips(slip));
        let (from, to) = match *numbers {
            [from] => return from >= nodes_with(Slip::FromNodeOfNodesAccepted),
            [from, to, ..] => self.edge(from, to),
            [] => return false,
        };
        let before = match self.slip {
            Some(Slip::FirstEdgeHeldAgainstZero) => Some(before.unwrap_or((0, 0))),
            _ => before,
        };
        let ascends = before.is_none_or(|before| match self.slip {
            Some(Slip::EqualEdgeAccepted) => (from, to) >= before,
            Some(Slip::EdgeOrderNotTested) => true,
            Some(Slip::EdgeOrderByFromAlone) => from >= before.0,
            Some(Slip::EdgeOrderByToFirst) => (to, from) > (before.1, before.0),
            _ => from > before.0 || (from == before.0 && to > before.1),
        });
        from >= nodes_with(Slip::FromNodeOfNodesAccepted)
            || to >= nodes_with(Slip::ToNodeOfNodesAccepted)
            || !ascends
            || (from == to && self.slips(Slip::SelfEdgeRefused))
    }

    pub(super) fn edge(self, from: u64, to: u64) -> (u64, u64) {
        match self.slip {
            Some(Slip::NodeIndexCutTo8Bits) => (from % 256, to % 256),
            _ => (from, to),
        }
    }
}

/// What follows the zeros at the start of these bytes and the spaces after them; all of the bytes where
/// nothing does.
fn past_zeros(bytes: &[u8]) -> &[u8] {
    let zeros = bytes.iter().take_while(|&&byte| byte == b'0').count();
    let spaces = bytes[zeros..].iter().take_while(|&&byte| byte == b' ');
    match &bytes[zeros + spaces.count()..] {
        [] => bytes,
        rest => rest,
    }
}

/// Whether these bytes are zeros and spaces, a zero the last of them.
fn are_zeros(bytes: &[u8]) -> bool {
    bytes.ends_with(b"0") && bytes.iter().all(|byte| b" 0".contains(byte))
}
