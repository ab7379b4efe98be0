//! The third promise on real walks: two records, one under a plan (document 01, "Two monitors on one
//! walk"). Their events are taken by the rule that the library takes from the job's file.
use crate::library::Library;
use crate::records::{Records, Tally};
use crate::ruling::taken;
use dapohiru::Rule;
use dapohiru_generators::random::Random;
use dapohiru_generators::walker::Walker;
use dapohiru_generators::zeros::filled;
use dapohiru_second::job::Job;
use dapohiru_second::search::{difference, Difference};
use dapohiru_second::walk::{Place, Walks};

/// An alarm total to begin with: 0, near the highest, or any.
pub fn first_total(random: &mut Random) -> u64 {
    match random.below(3) {
        0 => 0,
        1 => u64::MAX - random.below(6),
        _ => random.number(),
    }
}

/// What one walk came to.
#[derive(Default)]
pub struct Walked {
    pub tally: Tally,
    /// How often the walk came to the point that it came to most.
    pub rounds: u64,
    /// How often the walk came in again.
    pub came_in: u64,
    /// How often the walk returned.
    pub returned: u64,
    /// Whether the reports differ at the last event.
    pub differs: bool,
}

/// The rule that the library takes from a job's file, which has any zeros.
pub fn rule_of(library: Library, random: &mut Random, job: &Job) -> Result<Rule, String> {
    taken(library, &filled(random, job.file()))
}

/// Takes one random walk of at most so many events, with refused calls between, and ends at the first
/// difference of the reports; says in words what else is wrong.
pub fn walk(
    library: Library,
    random: &mut Random,
    walks: &Walks,
    plan: &[u8],
    most: u64,
) -> Result<Walked, String> {
    let rule = rule_of(library, random, walks.job)?;
    let mut walker = Walker::begin(random, walks);
    let alarms = first_total(random);
    let mut records = Records::new(library, walks.job, &rule, plan, walker.start, alarms);
    let mut left = most;
    let differs = records.first_difference(random, |random| {
        left = left.checked_sub(1)?;
        walker.next_event(random)
    })?;
    Ok(Walked {
        tally: records.tally,
        came_in: walker.came_in,
        returned: walker.returned,
        rounds: walker.visits.into_iter().max().unwrap_or(0),
        differs: differs.is_some(),
    })
}

/// What the walks came to that need the watched points of a plan.
#[derive(Clone, Copy, Debug, Default)]
pub struct Needed {
    pub points: usize,
    /// The events of the longest of the walks.
    pub longest: usize,
    /// Walks that come in again.
    pub came_in: usize,
    /// Walks that return.
    pub returned: usize,
    pub tally: Tally,
}

/// Takes, for one in so many of the plan's watched points, a walk on which the records differ once its
/// byte alone is 0, or says which point no walk needs.
pub fn needed(
    library: Library,
    random: &mut Random,
    walks: &Walks,
    plan: &[u8],
    one_in: u64,
) -> Result<Needed, String> {
    let rule = rule_of(library, random, walks.job)?;
    let mut needed = Needed::default();
    for point in (0..plan.len()).filter(|&node| plan[node] == 1) {
        if !random.once_in(one_in) {
            continue;
        }
        let mut fewer = plan.to_vec();
        fewer[point] = 0;
        let Some(found) = difference(walks, &fewer) else {
            return Err(format!("no walk needs node {point} of {plan:?}"));
        };
        let state = first_state(walks.job, &found)?;
        let alarms = first_total(random);
        // the walk's last event shows it, and with the byte at 1 nothing does
        let last = found.events.len() as u64 - 1;
        for (plan, wanted) in [(&fewer[..], Some(last)), (plan, None)] {
            let mut records = Records::new(library, walks.job, &rule, plan, state, alarms);
            let mut events = found.events.iter().copied();
            let place = records.first_difference(random, |_| events.next())?;
            if place != wanted {
                return Err(format!(
                    "the records differ at {place:?} and not {wanted:?} of {:?} under {plan:?}",
                    found.events
                ));
            }
            needed.tally.add(records.tally);
        }
        needed.points += 1;
        needed.came_in += usize::from(found.came_in > 0);
        needed.returned += usize::from(found.returned > 0);
        needed.longest = needed.longest.max(found.events.len());
    }
    Ok(needed)
}

/// The admitted state in which the walk of a difference begins.
fn first_state(job: &Job, found: &Difference) -> Result<usize, String> {
    let (full, planned) = found.states;
    match found.start {
        Place::Before(entry) if job.nodes[entry].entry >> full & 1 == 1 && full == planned => {
            Ok(full)
        }
        start => Err(format!(
            "a walk begins at {start:?} in {full} and {planned}"
        )),
    }
}
