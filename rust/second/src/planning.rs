//! Planning as document 01 defines it: passes over the points, each made unwatched where the plan
//! stays faithful, until a pass changes nothing; it is counted too. The watched total is carried along
//! and lowered when a point goes.
use crate::found::found;
use crate::job::EVENT;
use crate::search::difference;
use crate::slip::Slip;
use crate::walk::Walks;
use std::fmt::Display;

/// A plan, with what planning counts.
#[derive(Clone, Debug, PartialEq, Eq)]
pub struct Planned {
    pub plan: Vec<u8>,
    /// The count of event nodes.
    pub points: u64,
    /// The count of watched points.
    pub watched: u64,
    pub passes: u64,
}

/// The plan of a job, with the slip that its walks have.
pub fn plan(walks: &Walks) -> Planned {
    let job = walks.job;
    let (mut plan, mut watched) = all_watched(walks);
    let points = points_to_try(walks);
    let mut passes = 0;
    let (mut after_first, mut before_last) = (None, watched);
    loop {
        passes += 1;
        let (changed, total) = match walks.slip {
            Some(Slip::LaterPassesOnlyCounted) if passes > 1 => (false, watched),
            _ => pass(walks, &points, &mut plan, watched),
        };
        let over = match walks.slip {
            Some(Slip::OnePassOnly) => true,
            Some(Slip::TwoPassesAtMost) => passes == 2,
            _ => false,
        };
        after_first.get_or_insert(total);
        if changed {
            before_last = watched;
        }
        watched = total;
        if !changed || over {
            break;
        }
    }
    let mut planned = Planned {
        points: job.points().len() as u64,
        watched,
        passes,
        plan,
    };
    match walks.slip {
        Some(Slip::LastPassNotCounted) => planned.passes -= 1,
        Some(Slip::CountsSwapped) => {
            std::mem::swap(&mut planned.points, &mut planned.watched);
        }
        Some(Slip::EveryNodeCounted) => planned.points = job.nodes.len() as u64,
        Some(Slip::ReentrantCounted) => planned.points += job.reentrant().len() as u64,
        Some(Slip::WatchedAfterPassOne) => planned.watched = after_first.unwrap_or(0),
        Some(Slip::WatchedBeforeLastRemoval) => planned.watched = before_last,
        _ => {}
    }
    planned
}

/// The plan with all points watched, and its watched total.
fn all_watched(walks: &Walks) -> (Vec<u8>, u64) {
    let plan = walks.job.all_watched();
    let watched = match walks.slip {
        Some(Slip::TotalStartsFromAllNodes) => plan.len(),
        _ => walks.job.points().len(),
    } as u64;
    hold(walks, &plan, watched, "at the start");
    (plan, watched)
}

/// Holds the watched total to the plan, counted anew; a slip is free of it.
fn hold(walks: &Walks, plan: &[u8], watched: u64, when: impl Display) {
    let counted = plan.iter().filter(|&&byte| byte == 1).count() as u64;
    assert!(
        watched == counted || walks.slip.is_some(),
        "{when} the watched total is {watched}, and the plan has {counted} watched points"
    );
}

/// The points that a pass goes through, in the order of the pass: all of them, in number order.
fn points_to_try(walks: &Walks) -> Vec<usize> {
    let mut points = walks.job.points();
    match walks.slip {
        Some(Slip::FallingOrder) => points.reverse(),
        Some(Slip::LastPointNotTried) => drop(points.pop()),
        Some(Slip::NothingRemoved) => points.clear(),
        Some(Slip::LoweredAtOtherNodes) => points = (0..walks.job.nodes.len()).collect(),
        Some(Slip::NopMarkDecides | Slip::UnreachedStaysWatched) => {
            let by_mark = walks.slips(Slip::NopMarkDecides);
            let found = found(walks, &walks.job.all_watched());
            let tried = found.iter().filter(|(_, found)| {
                if by_mark {
                    found.nop
                } else {
                    found.before != 0
                }
            });
            points = tried.map(|&(point, _)| point).collect();
        }
        _ => {}
    }
    points
}

/// One pass; says whether a point has gone, and gives the watched total back.
fn pass(walks: &Walks, points: &[usize], plan: &mut [u8], mut watched: u64) -> (bool, u64) {
    let mut changed = false;
    let mut place = 0;
    while place < points.len() {
        let point = points[place];
        place += 1;
        let before = plan[point];
        plan[point] = 0;
        if before == 1 && !may_go(walks, plan, point) {
            plan[point] = 1;
        }
        let goes = plan[point] < before;
        let lowers = match walks.slip {
            Some(Slip::LoweredWherePointStays) => before == 1,
            Some(Slip::NotLoweredWherePointGoes) => false,
            Some(Slip::LoweredAtOtherNodes) => goes || walks.job.nodes[point].kind != EVENT,
            _ => goes,
        };
        if lowers {
            // only a slip lowers it at 0
            watched = watched.saturating_sub(1);
        }
        hold(walks, plan, watched, format_args!("after node {point}"));
        changed |= goes;
        if goes && walks.slips(Slip::PassBeginsAgain) {
            place = 0;
        }
    }
    (changed, watched)
}

/// Whether a watched point may go: the plan with it unwatched is faithful.
fn may_go(walks: &Walks, plan: &[u8], point: usize) -> bool {
    let faithful = |plan: &[u8]| difference(walks, plan).is_none();
    let without = |plan: &[u8], point: usize| {
        let mut plan = plan.to_vec();
        plan[point] = 0;
        plan
    };
    match walks.slip {
        Some(Slip::EverythingRemoved) => true,
        Some(Slip::TriedAlone) => faithful(&without(&walks.job.all_watched(), point)),
        Some(Slip::NopPointsRemovedTogether) => {
            let found = found(walks, plan);
            found.iter().any(|(of, found)| *of == point && found.nop)
        }
        Some(Slip::WatchingMoreIsFaithful) => {
            let mut others = walks
                .job
                .points()
                .into_iter()
                .filter(|&other| plan[other] == 1);
            faithful(plan) || others.any(|other| faithful(&without(plan, other)))
        }
        _ => faithful(plan),
    }
}
