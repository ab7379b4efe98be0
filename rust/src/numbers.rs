//! The C calls as they are, on slices, in the order of their C arguments: each returns one number.
//!
//! A refusal is its number, 1 to 22 or 28. Every other answer has 2^48 added: planning returns event
//! nodes times 2^32, watched points times 2^16 and passes, listing the length of its lines, the check 0
//! for faithful and 1 for different, pricing the cents, the event step 0 for quiet and 1 for alarm, the
//! call for a job's rule the states times 2^32, the symbols times 2^16 and the set of final states, the
//! call for rule rows 0, the call for an expression the states times 2^16 and the set of final states, and
//! the calls on edges their count.
//!
//! ```
//! use dapohiru::numbers::{event, ALARM};
//!
//! assert_eq!(event(&[0; 256], 1, 1, 1, 0, &mut [0; 16]), ALARM);
//! assert_eq!(event(&[0; 255], 1, 1, 1, 0, &mut [0; 16]), 13);
//! ```
use crate::ffi;

/// What is added to the answer of an accepted call; the number of faithful, of quiet and of a rule from rows.
pub const ACCEPTED: u64 = 1 << 48;
/// The number of a plan that is not faithful.
pub const DIFFERENT: u64 = ACCEPTED + 1;
/// The number of an event with an alarm.
pub const ALARM: u64 = ACCEPTED + 1;

/// The number of [`crate::plan`].
#[inline]
pub fn plan(job: &[u8], work: &mut [u8], plan: &mut [u8]) -> u64 {
    // SAFETY: each pointer and length are of one slice, `job` is only read, and nothing else holds
    // `work` and `plan` during the call.
    unsafe {
        ffi::dapohiru_plan(
            job.as_ptr(),
            job.len(),
            work.as_mut_ptr(),
            work.len(),
            plan.as_mut_ptr(),
            plan.len(),
        )
    }
}

/// The number of [`crate::list`].
#[inline]
pub fn list(job: &[u8], work: &mut [u8], listing: &mut [u8]) -> u64 {
    // SAFETY: each pointer and length are of one slice, `job` is only read, and nothing else holds
    // `work` and `listing` during the call.
    unsafe {
        ffi::dapohiru_list(
            job.as_ptr(),
            job.len(),
            work.as_mut_ptr(),
            work.len(),
            listing.as_mut_ptr(),
            listing.len(),
        )
    }
}

/// The number of [`crate::check`].
#[inline]
pub fn check(job: &[u8], plan: &[u8], work: &mut [u8]) -> u64 {
    // SAFETY: each pointer and length are of one slice, `job` and `plan` are only read, and nothing
    // else holds `work` during the call.
    unsafe {
        ffi::dapohiru_check(
            job.as_ptr(),
            job.len(),
            plan.as_ptr(),
            plan.len(),
            work.as_mut_ptr(),
            work.len(),
        )
    }
}

/// The number of [`crate::price`].
#[inline]
pub fn price(job: &[u8], plan: &[u8], volumes: &[u8]) -> u64 {
    // SAFETY: each pointer and length are of one slice, and all three are only read.
    unsafe {
        ffi::dapohiru_price(
            job.as_ptr(),
            job.len(),
            plan.as_ptr(),
            plan.len(),
            volumes.as_ptr(),
            volumes.len(),
        )
    }
}

/// The number of [`crate::price_by`].
#[inline]
pub fn price_by(job: &[u8], plan: &[u8], volumes: &[u8], prices: &[u8]) -> u64 {
    // SAFETY: each pointer and length are of one slice, and all four are only read.
    unsafe {
        ffi::dapohiru_price_by(
            job.as_ptr(),
            job.len(),
            plan.as_ptr(),
            plan.len(),
            volumes.as_ptr(),
            volumes.len(),
            prices.as_ptr(),
            prices.len(),
        )
    }
}

/// The number of [`crate::rule`]; the table is written to `rule`, which is exactly 256 bytes, or else the
/// call is refused as 13, after 1 to 10. A refusal leaves `rule` as it was.
///
/// ```
/// use dapohiru::numbers::{rule, ACCEPTED};
///
/// // two states, the second of them final, and one symbol, which leads to the other state
/// let job = b"\
/// J     2     1     1     0
/// R     0     0     1
/// R     1     1     0
/// P     0     1     0     1     0     0
/// ";
/// let (mut work, mut table) = (vec![0; 65_536], [7; 256]);
/// assert_eq!(rule(job, &mut work, &mut table[1..]), 13);
/// assert_eq!(table, [7; 256]);
/// assert_eq!(rule(job, &mut work, &mut table), ACCEPTED + (2 << 32) + (1 << 16) + 0b10);
/// assert_eq!((table[0], table[16]), (1, 0));
/// assert_eq!(table.iter().sum::<u8>(), 1);
/// ```
#[inline]
pub fn rule(job: &[u8], work: &mut [u8], rule: &mut [u8]) -> u64 {
    // SAFETY: each pointer and length are of one slice, `job` is only read, and nothing else holds
    // `work` and `rule` during the call.
    unsafe {
        ffi::dapohiru_rule(
            job.as_ptr(),
            job.len(),
            work.as_mut_ptr(),
            work.len(),
            rule.as_mut_ptr(),
            rule.len(),
        )
    }
}

/// The number of [`crate::rows`]; the table is written to `rule`, which is exactly 256 bytes, or else the
/// call is refused as 13, before anything else is looked at. A refusal leaves `rule` as it was.
///
/// ```
/// use dapohiru::numbers::{rows, ACCEPTED};
///
/// // one row for both states and the only symbol
/// let text = b"Q     0     1     0     0     1\n";
/// let mut table = [7; 256];
/// assert_eq!(rows(text, 2, 1, 0b10, &mut table[1..]), 13);
/// assert_eq!(table, [7; 256]);
/// assert_eq!(rows(text, 2, 1, 0b10, &mut table), ACCEPTED);
/// assert_eq!((table[0], table[16]), (1, 1));
/// assert_eq!(table.iter().sum::<u8>(), 2);
/// ```
#[inline]
pub fn rows(rows: &[u8], states: u64, symbols: u64, finals: u64, rule: &mut [u8]) -> u64 {
    // SAFETY: each pointer and length are of one slice, `rows` is only read, and nothing else holds
    // `rule` during the call.
    unsafe {
        ffi::dapohiru_rows(
            rows.as_ptr(),
            rows.len(),
            states,
            symbols,
            finals,
            rule.as_mut_ptr(),
            rule.len(),
        )
    }
}

/// The number of [`crate::expression()`]; the table is written to `rule`, which is exactly 256 bytes, or else
/// the call is refused as 13, before anything else is looked at. A refusal leaves `rule` as it was.
///
/// ```
/// use dapohiru::numbers::{expression, ACCEPTED};
///
/// // the start, the one letter, and nothing
/// let mut table = [7; 256];
/// assert_eq!(expression(b"a", 1, &mut table[1..]), 13);
/// assert_eq!(table, [7; 256]);
/// assert_eq!(expression(b"a", 1, &mut table), ACCEPTED + (3 << 16) + 0b10);
/// assert_eq!((table[0], table[16], table[32]), (1, 2, 2));
/// assert_eq!(table.iter().sum::<u8>(), 5);
/// ```
#[inline]
pub fn expression(text: &[u8], symbols: u64, rule: &mut [u8]) -> u64 {
    // SAFETY: each pointer and length are of one slice, `text` is only read, and nothing else holds
    // `rule` during the call.
    unsafe {
        ffi::dapohiru_expression(
            text.as_ptr(),
            text.len(),
            symbols,
            rule.as_mut_ptr(),
            rule.len(),
        )
    }
}

/// The number of [`crate::event`].
#[inline]
pub fn event(
    rule: &[u8],
    states: u64,
    symbols: u64,
    finals: u64,
    symbol: u64,
    record: &mut [u8],
) -> u64 {
    // SAFETY: each pointer and length are of one slice, `rule` is only read, and nothing else holds
    // `record` during the call.
    unsafe {
        ffi::dapohiru_event(
            rule.as_ptr(),
            rule.len(),
            states,
            symbols,
            finals,
            symbol,
            record.as_mut_ptr(),
            record.len(),
        )
    }
}

/// The number of [`crate::Arrivals::add`], on lists of one's own: `edges` as from, to, in ascending order, with
/// room for one more; `predecessors`, node 0's first; `starts`, at n where the predecessors of node n begin and
/// at n + 1 where they end. The first 2 `count`, `count` and `nodes` + 1 numbers of them are the edges and their
/// index; what stands past them is not looked at.
///
/// The lists are then those with the edge, and all past them is as it was. A refusal is 22, also where the index
/// is not that of the edges or a list is too short, and leaves them as they were.
///
/// ```
/// use dapohiru::numbers::{add_edge, ACCEPTED};
///
/// // 0 leads to 1, and 2 shall; each list has a number more than the two edges want
/// let (mut edges, mut predecessors, mut starts) = ([0, 1, 9, 9, 9], [0, 9, 9], [0, 0, 1, 1, 9]);
/// let count = add_edge(&mut edges, &mut predecessors, &mut starts, 3, 1, 2, 1);
/// assert_eq!(count, ACCEPTED + 2);
/// assert_eq!(edges, [0, 1, 2, 1, 9]);
/// assert_eq!(predecessors, [0, 2, 9]);
/// assert_eq!(starts, [0, 0, 2, 2, 9]);
/// // 65,536 is no name of node 0
/// assert_eq!(add_edge(&mut edges, &mut predecessors, &mut starts, 3, 2, 65_536, 1), 22);
/// ```
#[inline]
pub fn add_edge(
    edges: &mut [u16],
    predecessors: &mut [u16],
    starts: &mut [u16],
    nodes: u64,
    count: u64,
    from: u64,
    to: u64,
) -> u64 {
    // SAFETY: each pointer and length are of one slice, and nothing else holds the three during the call.
    unsafe {
        ffi::dapohiru_add_edge(
            edges.as_mut_ptr(),
            edges.len(),
            predecessors.as_mut_ptr(),
            predecessors.len(),
            starts.as_mut_ptr(),
            starts.len(),
            nodes,
            count,
            from,
            to,
        )
    }
}

/// The number of [`crate::Arrivals::remove`], on lists as those of [`add_edge`]. They are then those without the
/// edge, the places that it frees at their ends are zero, and all past these is as it was.
///
/// ```
/// use dapohiru::numbers::{drop_edge, ACCEPTED};
///
/// let (mut edges, mut predecessors, mut starts) = ([0, 1, 2, 1, 9], [0, 2, 9], [0, 0, 2, 2, 9]);
/// let count = drop_edge(&mut edges, &mut predecessors, &mut starts, 3, 2, 0, 1);
/// assert_eq!(count, ACCEPTED + 1);
/// assert_eq!(edges, [2, 1, 0, 0, 9]);
/// assert_eq!(predecessors, [2, 0, 9]);
/// assert_eq!(starts, [0, 0, 1, 1, 9]);
/// ```
#[inline]
pub fn drop_edge(
    edges: &mut [u16],
    predecessors: &mut [u16],
    starts: &mut [u16],
    nodes: u64,
    count: u64,
    from: u64,
    to: u64,
) -> u64 {
    // SAFETY: each pointer and length are of one slice, and nothing else holds the three during the call.
    unsafe {
        ffi::dapohiru_drop_edge(
            edges.as_mut_ptr(),
            edges.len(),
            predecessors.as_mut_ptr(),
            predecessors.len(),
            starts.as_mut_ptr(),
            starts.len(),
            nodes,
            count,
            from,
            to,
        )
    }
}

/// The number of [`crate::Arrivals::new`]: writes the index of edges, as [`add_edge`] wants it, to the first
/// `count` numbers of `predecessors` and the first `nodes` + 1 of `starts`, whatever they hold, and no other. A
/// refusal is 22 and leaves them as they were.
///
/// ```
/// use dapohiru::numbers::{index_edges, ACCEPTED};
///
/// let (mut predecessors, mut starts) = ([9; 3], [9; 5]);
/// let count = index_edges(&[0, 1, 2, 1], &mut predecessors, &mut starts, 3, 2);
/// assert_eq!(count, ACCEPTED + 2);
/// assert_eq!((predecessors, starts), ([0, 2, 9], [0, 0, 2, 2, 9]));
/// assert_eq!(index_edges(&[2, 1, 0, 1], &mut predecessors, &mut starts, 3, 2), 22);
/// ```
#[inline]
pub fn index_edges(
    edges: &[u16],
    predecessors: &mut [u16],
    starts: &mut [u16],
    nodes: u64,
    count: u64,
) -> u64 {
    // SAFETY: each pointer and length are of one slice, `edges` is only read, and nothing else holds the
    // others during the call.
    unsafe {
        ffi::dapohiru_index_edges(
            edges.as_ptr(),
            edges.len(),
            predecessors.as_mut_ptr(),
            predecessors.len(),
            starts.as_mut_ptr(),
            starts.len(),
            nodes,
            count,
        )
    }
}
