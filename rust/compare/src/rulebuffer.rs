//! Rule buffers, which the calls for a job's rule, for rows and for an expression write to.
use crate::memory::Lent;
use crate::seen::Seen;
use dapohiru_generators::random::Random;
use dapohiru_second::reading::WORK;
use dapohiru_second::rulebuffer::RULE;

/// The longest rule buffer that is lent: its length is taken for 256 where the high bits are lost.
pub const MOST_RULE: usize = 65_536 + 256;

/// Lengths of rule buffers that are refused: near the right one, none, and such as are taken for the right one where
/// high bits are lost.
pub const LENGTHS: [usize; 11] = [
    0,
    1,
    16,
    255,
    257,
    272,
    512,
    WORK - 1,
    WORK,
    WORK + 1,
    MOST_RULE,
];

/// A length that is refused: any of those, or as many bytes as a rule of so many states and symbols has.
pub fn wrong_length(random: &mut Random, states: usize, symbols: usize) -> usize {
    let near = random.pick(&[RULE - 1, RULE + 1, states * symbols, 16 * states]);
    let any = random.pick(&LENGTHS);
    match random.pick(&[near, any, any]) {
        RULE => RULE + 1,
        len => len,
    }
}

/// A rule buffer to be lent.
pub fn lent(random: &mut Random) -> Lent {
    // no rule has a byte from 128 to 254, so that every byte written is seen
    Lent::new_between(random, MOST_RULE, 128, 254)
}

/// What a call leaves, in words: the rule by rows, a byte that is as it was as a dot.
pub fn leaves(seen: &Seen) -> String {
    let Seen {
        number,
        written,
        cleared,
    } = seen;
    let shown = |byte: &Option<u8>| byte.map_or(" .".to_string(), |byte| format!("{byte:2}"));
    let rows: Vec<_> = written
        .chunks(16)
        .map(|row| row.iter().map(shown).collect::<Vec<_>>().join(" "))
        .collect();
    format!(
        "number {number:#x}, {cleared} bytes cleared, written {} bytes\n{}",
        written.len(),
        rows.join("\n")
    )
}
