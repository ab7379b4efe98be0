//! The journal price of a plan.
use crate::{numbers, Refusal};

/// Prices a plan: what the journal lines of its watched points cost a day, in cents.
///
/// `plan` is one byte for each node, 1 at a watched point and 0 at all else. `volumes` is a volume file:
/// a V line for each node in order, with the node and its events a day, 0 to 999,999, in fields as those
/// of a job file. A thousand events of symbol s cost 20 + 5 s cents; a part of a cent in the sum over the
/// watched points counts as a cent.
///
/// Refused are 1, 3 to 12, and 16, which comes last. No work buffer is lent, so that there is no 2: the
/// call takes less than 73,728 bytes of the stack.
///
/// ```
/// use dapohiru::{price, Refusal};
///
/// // PAIR: two points of symbol 0, at 20 cents, and one of symbol 2, at 30
/// let job = b"\
/// J     3     3     3     2
/// R     0     0     1     0     0
/// R     1     0     1     0     2
/// R     2     1     1     0     2
/// P     0     1     0     1     0     0
/// P     1     1     0     0     0     0
/// P     2     1     2     0     1     0
/// F     0     1
/// F     1     2
/// ";
/// let volumes = b"\
/// V     0  1000
/// V     1  1000
/// V     2  1000
/// ";
/// assert_eq!(price(job, &[0, 1, 1], volumes), Ok(50));
/// assert_eq!(price(job, &[1, 1, 1], volumes), Ok(70));
///
/// // the last line is missing
/// assert_eq!(price(job, &[1, 1, 1], &volumes[..28]), Err(Refusal(16)));
/// ```
#[inline]
pub fn price(job: &[u8], plan: &[u8], volumes: &[u8]) -> Result<u64, Refusal> {
    cents(numbers::price(job, plan, volumes))
}

/// Prices a plan by a price file: as [`price()`], with an association's own prices.
///
/// `prices` is a price file: a B line for each symbol from 0 to 15 in order, however many the job has,
/// with the symbol and what a thousand events of it cost, 0 to 9,999 cents, in fields as those of a job
/// file. With 20 + 5 s cents at symbol s the answer is that of [`price()`].
///
/// Refused are those of [`price()`], and after them 28. The call takes less than 73,728 bytes of the stack.
///
/// ```
/// use dapohiru::{price_by, Refusal, PRICES_LEN};
///
/// // PAIR: two points of symbol 0 and one of symbol 2
/// let job = b"\
/// J     3     3     3     2
/// R     0     0     1     0     0
/// R     1     0     1     0     2
/// R     2     1     1     0     2
/// P     0     1     0     1     0     0
/// P     1     1     0     0     0     0
/// P     2     1     2     0     1     0
/// F     0     1
/// F     1     2
/// ";
/// let volumes = b"\
/// V     0  1000
/// V     1  1000
/// V     2  1000
/// ";
/// // symbol 0 costs 12 cents, symbol 2 costs 150, all others are free
/// let price = |symbol| [12, 0, 150].get(symbol).copied().unwrap_or(0);
/// let lines = (0..16).map(|symbol| format!("B{symbol:6}{:6}\n", price(symbol)));
/// let prices = lines.collect::<String>().into_bytes();
/// assert_eq!(prices.len(), PRICES_LEN);
/// assert_eq!(price_by(job, &[0, 1, 1], volumes, &prices), Ok(162));
/// assert_eq!(price_by(job, &[1, 1, 1], volumes, &prices), Ok(174));
///
/// // the last line is missing
/// assert_eq!(price_by(job, &[1, 1, 1], volumes, &prices[..210]), Err(Refusal(28)));
/// ```
#[inline]
pub fn price_by(job: &[u8], plan: &[u8], volumes: &[u8], prices: &[u8]) -> Result<u64, Refusal> {
    cents(numbers::price_by(job, plan, volumes, prices))
}

/// The answer of pricing that has this number.
#[inline]
fn cents(number: u64) -> Result<u64, Refusal> {
    number.checked_sub(numbers::ACCEPTED).ok_or(Refusal(number))
}
