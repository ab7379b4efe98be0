//! The rule that an expression makes.
use crate::{numbers, Refusal, Rule, RULE_LEN};

/// Makes a rule from an expression, for [`Rule::event`]: an event alarms exactly when the events so far,
/// from state 0 on, form a word of the expression's language.
///
/// The symbols are the letters a to p. A star binds first, then following on, then the bar; parentheses
/// group, and stars may follow one another. `text` has at most 64 characters, and `symbols` is 1 to 16.
///
/// State 0 is the start, which is not final and which no event leads back to. Every other state stands for
/// a set of letters of the text, by their places: those that the last event can stand for in a word of the
/// language that begins with the events so far. States are numbered as they are first met, breadth first
/// and symbols ascending. The table is zero past the states and symbols.
///
/// Refused are, in this order: 20, where `symbols` is outside 1 to 16, the text is empty, longer than 64
/// characters or outside the grammar, or a letter of it is past `symbols`; 21, where there are more than
/// 16 states. The call takes less than 24,576 bytes of the stack.
///
/// ```
/// use dapohiru::{expression, Record, Refusal, Report};
///
/// // sealed, then anything but reopened, then written: a seals, b reopens, c writes
/// let rule = expression(b"a(a|c)*c", 3).unwrap();
/// assert_eq!((rule.states, rule.symbols, rule.finals), (5, 3, 0b1_0000));
/// assert_eq!(rule.table[..4], [1, 2, 2, 0]);
/// assert_eq!(rule.table[16..20], [3, 2, 4, 0]);
///
/// let mut record = Record::default();
/// assert_eq!(rule.event(0, &mut record), Ok(Report::Quiet));
/// assert_eq!(rule.event(2, &mut record), Ok(Report::Alarm));
/// assert_eq!(rule.event(2, &mut record), Ok(Report::Alarm));
/// // a batch that is reopened never alarms again: the expression says nothing of a second seal
/// assert_eq!(rule.event(1, &mut record), Ok(Report::Quiet));
/// assert_eq!(rule.event(0, &mut record), Ok(Report::Quiet));
/// assert_eq!(rule.event(2, &mut record), Ok(Report::Quiet));
///
/// // a letter past the symbols, and a bar with nothing on one side
/// assert_eq!(expression(b"a(a|c)*c", 2), Err(Refusal(20)));
/// assert_eq!(expression(b"a(a|)*c", 3), Err(Refusal(20)));
/// // the start, the empty set, and a set for each of fourteen letters are 16 states
/// assert_eq!(expression(&[b'a'; 14], 1).unwrap().states, 16);
/// assert_eq!(expression(&[b'a'; 15], 1), Err(Refusal(21)));
/// ```
#[inline]
pub fn expression(text: &[u8], symbols: u64) -> Result<Rule, Refusal> {
    let mut table = [0; RULE_LEN];
    match numbers::expression(text, symbols, &mut table) {
        number if number < numbers::ACCEPTED => Err(Refusal(number)),
        number => Ok(Rule {
            table,
            states: number >> 16 & 0xffff,
            symbols,
            finals: number & 0xffff,
        }),
    }
}
