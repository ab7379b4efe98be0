//! Random calls of the event step, valid, damaged and at the limits, from a printed seed.
use crate::random::Random;

/// 1 to 16; now and then something that is no count of states or symbols.
fn count(random: &mut Random) -> u64 {
    if random.once_in(16) {
        let near = 1 + random.below(16);
        let far = random.number();
        random.pick(&[
            0,
            0,
            17,
            17,
            18,
            32,
            255,
            256 + near,
            (1 << 32) + near,
            u64::MAX,
            far,
        ])
    } else {
        1 + random.below(16)
    }
}

/// A number below `count`; now and then one that is not.
fn member(random: &mut Random, count: u64) -> u64 {
    if random.once_in(8) {
        let low = random.below(count.clamp(1, 16));
        let far = random.number();
        random.pick(&[
            count,
            count,
            count.wrapping_add(1),
            16,
            256 + low,
            (1 << 32) + low,
            (1 << 63) + low,
            u64::MAX,
            far,
        ])
    } else {
        random.below(count.max(1))
    }
}

/// An alarm total: small, at the end of the range, at the carry of some byte, or any.
fn total(random: &mut Random) -> u64 {
    match random.below(4) {
        0 => random.below(1000),
        1 => u64::MAX - random.below(3),
        2 => (1 << (8 * (1 + random.below(7)))) - 1,
        _ => random.number(),
    }
}

/// The bytes before and after the record that no call may change.
const MARGIN: usize = 24;

/// One call of the event step. The rule and the record stand in buffers of fixed size.
#[derive(Clone)]
pub struct Call {
    rule: [u8; 300],
    rule_len: usize,
    pub states: u64,
    pub symbols: u64,
    pub finals: u64,
    pub symbol: u64,
    /// The record between two margins.
    pub around: [u8; 40 + 2 * MARGIN],
    record_len: usize,
}

impl Call {
    pub fn rule(&self) -> &[u8] {
        &self.rule[..self.rule_len]
    }

    pub fn record(&self) -> &[u8] {
        &self.around[MARGIN..MARGIN + self.record_len]
    }

    /// What this event step answers, with the record altered as it does.
    pub fn by<T>(&mut self, event: impl FnOnce(&[u8], u64, u64, u64, u64, &mut [u8]) -> T) -> T {
        event(
            &self.rule[..self.rule_len],
            self.states,
            self.symbols,
            self.finals,
            self.symbol,
            &mut self.around[MARGIN..MARGIN + self.record_len],
        )
    }

    /// A rule that is accepted.
    pub fn with_good_rule(random: &mut Random) -> Self {
        let mut call = Call::with_any_rule(random);
        while call.rule_len != 256 || !call.rule_is_good() {
            call = Call::with_any_rule(random);
        }
        call
    }

    fn rule_is_good(&self) -> bool {
        (1..=16).contains(&self.states)
            && (1..=16).contains(&self.symbols)
            && self.finals >> self.states == 0
            && (0..self.states * 16)
                .filter(|place| place % 16 < self.symbols)
                .all(|place| u64::from(self.rule[place as usize]) < self.states)
    }

    fn with_any_rule(random: &mut Random) -> Self {
        let mut call = Call {
            rule: [0; 300],
            rule_len: 256,
            states: count(random),
            symbols: count(random),
            finals: random.number(),
            symbol: 0,
            around: [0; 40 + 2 * MARGIN],
            record_len: 16,
        };
        if random.once_in(16) {
            let any = random.below(301) as usize;
            call.rule_len = random.pick(&[0, 1, 255, 257, 300, any, any, any]);
        }
        // past S and A: any bytes, or bytes that would be next states too, or the highest
        match random.below(3) {
            0 => random.fill(&mut call.rule),
            1 => {}
            _ => call.rule.fill(255),
        }
        let (rows, columns) = (call.states.min(16), call.symbols.min(16));
        for row in 0..rows {
            for column in 0..columns {
                call.rule[(16 * row + column) as usize] = random.below(rows) as u8;
            }
        }
        if rows > 0 && columns > 0 && random.once_in(12) {
            let place = 16 * random.below(rows) + random.below(columns);
            let any = random.below(256);
            call.rule[place as usize] =
                random.pick(&[rows, rows, rows + 1, 16, 128, 255, any]) as u8;
        }
        if call.states < 64 && !random.once_in(24) {
            call.finals &= (1 << call.states) - 1;
            if random.once_in(12) {
                call.finals |= 1 << (call.states + random.below(64 - call.states));
            }
        }
        call
    }

    /// Any call: mostly a valid one, else with one or more faults.
    pub fn any(random: &mut Random) -> Self {
        let mut call = Call::with_any_rule(random);
        call.put_any_event(random);
        call
    }

    /// Gives the call any symbol and any record, mostly valid ones.
    pub fn put_any_event(&mut self, random: &mut Random) {
        self.symbol = member(random, self.symbols);
        random.fill(&mut self.around);
        if random.once_in(12) {
            let any = random.below(41) as usize;
            self.record_len = random.pick(&[0, 8, 15, 17, 40, any, any, any]);
        }
        let state = member(random, self.states).to_le_bytes();
        let total = total(random).to_le_bytes();
        self.around[MARGIN..MARGIN + 8].copy_from_slice(&state);
        self.around[MARGIN + 8..MARGIN + 16].copy_from_slice(&total);
    }
}
