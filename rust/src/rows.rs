//! The rule that the rows of an office make.
use crate::{numbers, Refusal, Rule, RULE_LEN};

/// Makes a rule from rows, for [`Rule::event`], whose `states`, `symbols` and `finals` are those given.
///
/// `rows` is a text of Q lines, at most 256 of them, 32 bytes each: the letter Q, the first and last state,
/// the first and last symbol and the next state in fields as those of a job file, and the byte 10. A row
/// gives its next state to every pair of a state from its first to its last and a symbol from its first to
/// its last. The rows name each pair of a state below `states` and a symbol below `symbols` just once, in
/// any order. The table is zero past the states and symbols.
///
/// Refused are, in this order: 17, where `states` or `symbols` is outside 1 to 16, `finals` has a state of
/// `states` or more, the text is longer than 8,192 bytes or anything but whole rows, or a row has a number
/// outside its limits or a first above its last; 18, where two rows name one pair, also with one next
/// state; 19, where a pair has no row.
///
/// ```
/// use dapohiru::{rows, Record, Refusal, Report};
///
/// // PAIR's rule: 0 seals, 1 reopens, 2 writes; state 1 is sealed, and a write then leads to 2, which is final
/// let text = b"\
/// Q     0     2     0     0     1
/// Q     0     2     1     1     0
/// Q     0     0     2     2     0
/// Q     1     2     2     2     2
/// ";
/// let rule = rows(text, 3, 3, 0b100).unwrap();
/// assert_eq!((rule.states, rule.symbols, rule.finals), (3, 3, 0b100));
/// assert_eq!(rule.table[..4], [1, 0, 0, 0]);
/// assert_eq!(rule.table[16..20], [1, 0, 2, 0]);
///
/// let mut record = Record::default();
/// assert_eq!(rule.event(0, &mut record), Ok(Report::Quiet));
/// assert_eq!(rule.event(2, &mut record), Ok(Report::Alarm));
///
/// // without its last row two pairs have none; with it twice they have two
/// assert_eq!(rows(&text[..96], 3, 3, 0b100), Err(Refusal(19)));
/// assert_eq!(rows(&[&text[..], &text[96..]].concat(), 3, 3, 0b100), Err(Refusal(18)));
/// // a cut row, and a final state past the states
/// assert_eq!(rows(&text[..127], 3, 3, 0b100), Err(Refusal(17)));
/// assert_eq!(rows(text, 3, 3, 0b1000), Err(Refusal(17)));
/// ```
#[inline]
pub fn rows(rows: &[u8], states: u64, symbols: u64, finals: u64) -> Result<Rule, Refusal> {
    let mut table = [0; RULE_LEN];
    match numbers::rows(rows, states, symbols, finals, &mut table) {
        numbers::ACCEPTED => Ok(Rule {
            table,
            states,
            symbols,
            finals,
        }),
        number => Err(Refusal(number)),
    }
}
