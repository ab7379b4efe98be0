//! Volume files (document 02, "Journal price of a plan"): random ones, with any zeros before their numbers, and
//! ones with a fault or with damage.
use crate::numbered::{self, near_limits};
use crate::random::Random;
use dapohiru_second::numbered::VOLUMES;

/// The events a day of so many nodes: the same at each, few or thousands at each, or any numbers with many at
/// the limits.
pub fn events(random: &mut Random, nodes: usize) -> Vec<u64> {
    let same = random.pick(&[0, 1, VOLUMES.most]);
    let shape = random.below(8);
    let event = |_| match shape {
        0 => same,
        1 | 2 => random.below(60),
        3 => 1_000 * random.below(1_000),
        _ => near_limits(random, &[9, 99, 9_999, 65_537, VOLUMES.most]),
    };
    (0..nodes).map(event).collect()
}

/// The volume file of events a day, without zeros before its numbers.
pub fn file(events: &[u64]) -> Vec<u8> {
    VOLUMES.file(events)
}

/// A volume file for so many nodes, with any zeros.
pub fn any(random: &mut Random, nodes: usize) -> Vec<u8> {
    let events = events(random, nodes);
    numbered::any(random, VOLUMES, &events)
}

/// A file like one for so many nodes, with any zeros and one fault: it is not exactly these lines.
pub fn refused(random: &mut Random, nodes: usize) -> Vec<u8> {
    let events = events(random, nodes);
    numbered::refused(random, VOLUMES, &events)
}

/// A file like one for so many nodes, with any zeros and with other bytes, which it may be sound with.
pub fn damaged(random: &mut Random, nodes: usize) -> Vec<u8> {
    let events = events(random, nodes);
    numbered::damaged(random, VOLUMES, &events)
}
