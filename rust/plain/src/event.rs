//! The event step.

/// Takes one event in place: whether it is an alarm, or the refusal.
#[inline(never)]
pub fn event(
    rule: &[u8],
    states: u64,
    symbols: u64,
    finals: u64,
    symbol: u64,
    record: &mut [u8],
) -> Result<bool, u64> {
    let count = 1..=16;
    if rule.len() != 256
        || !count.contains(&states)
        || !count.contains(&symbols)
        || finals >> states != 0
    {
        return Err(13);
    }
    for row in rule.chunks_exact(16).take(states as usize) {
        if row[..symbols as usize]
            .iter()
            .any(|&next| u64::from(next) >= states)
        {
            return Err(13);
        }
    }
    if symbol >= symbols {
        return Err(14);
    }
    let Ok(record) = <&mut [u8; 16]>::try_from(record) else {
        return Err(15);
    };
    let (state_bytes, total_bytes) = record.split_at_mut(8);
    let state = u64::from_le_bytes(state_bytes[..8].try_into().unwrap());
    if state >= states {
        return Err(15);
    }
    let next = u64::from(rule[(16 * state + symbol) as usize]);
    state_bytes.copy_from_slice(&next.to_le_bytes());
    if finals >> next & 1 == 0 {
        return Ok(false);
    }
    let total = u64::from_le_bytes(total_bytes[..8].try_into().unwrap());
    total_bytes.copy_from_slice(&total.saturating_add(1).to_le_bytes());
    Ok(true)
}
