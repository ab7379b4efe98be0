//! Random jobs of more than one kind.
use crate::large::{self, Order};
use crate::random::Random;
use crate::reentry::{reentered, Reentry};
use crate::sized::{self, FULL};
use crate::{rings, small};
use dapohiru_second::job::Job;

/// A job of a few nodes, one in four with its points in rings.
pub fn small_job(random: &mut Random) -> Job {
    if random.once_in(4) {
        rings_with(random, Reentry::Often)
    } else {
        small::job(random)
    }
}

/// A job with its points in rings, with calls that may come back in or without.
fn rings_with(random: &mut Random, reentry: Reentry) -> Job {
    let job = rings::job(random);
    reentry.apply(random, job, reentered)
}

/// A job of 512 nodes: one in so many has the longest file, the others have long loops.
pub fn full_job(random: &mut Random, number: usize, one_in: usize) -> Job {
    if number.is_multiple_of(one_in) {
        sized::job(random, FULL)
    } else {
        large::job(random, Order::in_turn(number))
    }
}

/// A job for walks with two monitors: of a few nodes, or of some dozens with a rule under which many
/// points matter; one in two has calls that may come back in.
pub fn job(random: &mut Random) -> Job {
    job_with(random, Reentry::Often)
}

/// The same, with calls that may come back in or without.
pub fn job_with(random: &mut Random, reentry: Reentry) -> Job {
    match random.below(4) {
        0 => rings_with(random, reentry),
        1 => small::job_with(random, reentry),
        _ => {
            let order = random.pick(&[Order::Flow, Order::Parts]);
            let nodes = random.between(16, 48);
            large::job_of(random, order, nodes, reentry)
        }
    }
}
