//! The listing of a job: a W line for each point, and the T line.
use crate::found::found;
use crate::job::{spell, Job, Line};
use crate::planning::{plan, Planned};
use crate::slip::Slip;
use crate::walk::Walks;

/// The W and T lines of a job.
pub fn listing(job: &Job) -> Vec<u8> {
    let walks = Walks::new(job, None);
    lines(&walks, &plan(&walks))
}

/// The W and T lines of a job with this plan, with the slip that its walks have.
pub fn lines(walks: &Walks, planned: &Planned) -> Vec<u8> {
    let mut lines = Vec::new();
    for (node, found) in found(walks, &planned.plan) {
        let watched = u64::from(planned.plan[node]);
        let mut marks = [u64::from(found.nop), watched];
        match walks.slip {
            Some(Slip::WatchedLinesOnly) if watched == 0 => continue,
            Some(Slip::MarksSwapped) => marks.reverse(),
            _ => {}
        }
        let [nop, watched] = marks;
        let symbol = walks.job.nodes[node].value;
        let numbers = [
            node as u64,
            symbol,
            found.before,
            found.classes,
            nop,
            watched,
        ];
        lines.push(Line::new(b'W', &numbers));
    }
    let counts = [planned.points, planned.watched, planned.passes];
    lines.push(Line::new(b'T', &counts));
    spell(&lines)
}
