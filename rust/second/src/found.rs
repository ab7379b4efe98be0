//! What is found at a point with all points watched (document 01, "What is found at a point").
use crate::apart::Apart;
use crate::job::members;
use crate::search::Search;
use crate::slip::Slip;
use crate::walk::{Place, Walks};

/// What is found at a point.
#[derive(Clone, Debug, PartialEq, Eq)]
pub struct Found {
    /// The states in which some walk arrives there ("before set").
    pub before: u64,
    /// How many states are lowest in their class.
    pub classes: u64,
    /// Whether the point has nop mark 1.
    pub nop: bool,
}

/// Whether no continuation past a node has an alarm from one state and not from the other at the
/// same event ("of one class"), by following every continuation.
pub fn alike(walks: &Walks, node: usize, one: usize, other: usize) -> bool {
    let mut search = Search::new(walks, &walks.job.all_watched());
    search.begin(Place::Past(node), one, other);
    search.difference().is_none()
}

/// What is found at each point, in number order. The plan is of no matter, but for slips.
pub fn found(walks: &Walks, plan: &[u8]) -> Vec<(usize, Found)> {
    let all_watched = walks.job.all_watched();
    let mut full = Search::new(walks, &all_watched);
    full.begin_at_entries();
    full.follow();
    let mut planned = Search::new(walks, plan);
    if walks.slips(Slip::BeforeUnderPlan) {
        planned.begin_at_entries();
        planned.follow();
    }
    let apart = match walks.slip {
        Some(Slip::ClassesUnderPlan) => Apart::new(walks, plan),
        _ => Apart::new(walks, &all_watched),
    };
    let at = |node: usize| {
        let before = match walks.slip {
            Some(Slip::BeforeUnderPlan) => planned.planned_states(Place::Before(node)),
            Some(Slip::BeforePastPoint) => full.full_states(Place::Past(node)),
            Some(Slip::BeforeOfEntryAdmittedOnly) if walks.job.nodes[node].entry != 0 => {
                walks.job.nodes[node].entry
            }
            _ => full.full_states(Place::Before(node)),
        };
        let reached = full.full_states(Place::Past(node));
        let found = Found {
            before,
            classes: classes(walks, &apart, node, reached),
            nop: nop(walks, &apart, node, before),
        };
        (node, found)
    };
    walks.job.points().into_iter().map(at).collect()
}

/// How many states, out of all, are lowest in their class after a point.
fn classes(walks: &Walks, apart: &Apart, node: usize, reached: u64) -> u64 {
    let place = match walks.slip {
        Some(Slip::ClassesBeforePoint) => Place::Before(node),
        _ => Place::Past(node),
    };
    let states = walks.job.states();
    let counts = |state: &usize| match walks.slip {
        Some(Slip::ClassesOfReachedOnly) => reached >> state & 1 == 1,
        _ => true,
    };
    let is_lowest = |&state: &usize| {
        let mut lower = (0..state).filter(counts);
        let mut others = (0..states).filter(|&other| other != state);
        let alone = !others.any(|other| apart.alike(place, other, state));
        let left_out = alone && walks.slips(Slip::ClassesOfSeveralOnly);
        !left_out && !lower.any(|lower| apart.alike(place, lower, state))
    };
    (0..states).filter(counts).filter(is_lowest).count() as u64
}

/// Whether for every state of the before set the next state is not final and of the same class after
/// the point as the state itself.
fn nop(walks: &Walks, apart: &Apart, node: usize, before: u64) -> bool {
    let job = walks.job;
    let symbol = job.nodes[node].value as usize;
    let is_nop = |state: usize| {
        let next = job.next[state][symbol] as usize;
        let quiet = match walks.slip {
            Some(Slip::NopThoughFinal) => true,
            Some(Slip::NopFinalToFinal) => job.finals[next] == 0 || job.finals[state] == 1,
            _ => job.finals[next] == 0,
        };
        let same = match walks.slip {
            Some(Slip::NopSameStateOnly) => next == state,
            _ => apart.alike(Place::Past(node), state, next),
        };
        quiet && same
    };
    match walks.slip {
        Some(Slip::NopOfEveryState) => (0..job.states()).all(is_nop),
        Some(Slip::NopOfSomeState) => before == 0 || members(before).any(is_nop),
        Some(Slip::NopOfUnreachedIsZero) => before != 0 && members(before).all(is_nop),
        _ => members(before).all(is_nop),
    }
}
