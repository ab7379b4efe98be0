//! The rule that rows make.
use crate::read::take;

/// The longest text: 32 bytes for each of 256 rows.
const LONGEST: usize = 8_192;

/// Makes a rule from rows, or gives the refusal, which leaves `rule` as it was. Each state has the set of symbols that
/// its rows have named.
pub fn rows(
    text: &[u8],
    states: u64,
    symbols: u64,
    finals: u64,
    rule: &mut [u8],
) -> Result<(), u64> {
    if rule.len() != 256 {
        return Err(13);
    }
    let is_count = |count: u64| (1..=16).contains(&count);
    if text.len() > LONGEST || !is_count(states) || !is_count(symbols) || finals >> states != 0 {
        return Err(17);
    }
    let (states, symbols) = (states as usize, symbols as usize);
    let mut table = [0; 256];
    let mut named = [0_u32; 16];
    let mut overlap = 0;
    let mut rest = text;
    while !rest.is_empty() {
        let mut line = [0; 5];
        take(&mut rest, b'Q', &mut line).map_err(|_| 17_u64)?;
        let [first, last, low, high, next] = line.map(|number| number as usize);
        if last >= states || high >= symbols || next >= states || first > last || low > high {
            return Err(17);
        }
        let set = (2 << high) - (1 << low);
        for state in first..=last {
            overlap |= named[state] & set;
            named[state] |= set;
            table[16 * state + low..=16 * state + high].fill(next as u8);
        }
    }
    if overlap != 0 {
        return Err(18);
    }
    let all = (1 << symbols) - 1;
    if named[..states].iter().any(|&named| named != all) {
        return Err(19);
    }
    rule.copy_from_slice(&table);
    Ok(())
}
