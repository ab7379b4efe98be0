//! Planning: passes over the points until one changes nothing.
use crate::check::{Checker, LONGEST, WORK};

/// The least length of a plan buffer.
const PLAN: usize = 512;

/// What planning counts.
#[derive(Clone, Copy, Debug, PartialEq, Eq)]
pub struct Counts {
    pub points: usize,
    pub watched: usize,
    pub passes: u64,
}

/// A plan, with what planning counts.
#[derive(Clone, Debug, PartialEq, Eq)]
pub struct Plan {
    pub bytes: Vec<u8>,
    pub points: usize,
    pub watched: usize,
    pub passes: u64,
}

/// The plan of the job that a file spells, or the refusal.
pub fn plan(checker: &mut Checker, file: &[u8]) -> Result<Plan, u64> {
    checker.read(file)?;
    let mut bytes = vec![0; checker.nodes()];
    let Counts {
        points,
        watched,
        passes,
    } = checker.make_plan(&mut bytes);
    Ok(Plan {
        bytes,
        points,
        watched,
        passes,
    })
}

impl Checker {
    /// Writes the plan of the job that a file spells to the start of a plan buffer, or gives the
    /// refusal. Nothing is allocated.
    pub fn plan(&mut self, file: &[u8], work: &mut [u8], plan: &mut [u8]) -> Result<Counts, u64> {
        if file.len() > LONGEST {
            return Err(1);
        }
        if work.len() < WORK || plan.len() < PLAN {
            return Err(2);
        }
        let counts = self.read(file).map(|()| {
            let nodes = self.nodes();
            self.make_plan(&mut plan[..nodes])
        });
        work[..WORK].fill(0);
        counts
    }

    /// Makes the plan of the job that was read, of a byte for each of its nodes.
    fn make_plan(&mut self, plan: &mut [u8]) -> Counts {
        let mut points = 0;
        for (node, byte) in plan.iter_mut().enumerate() {
            *byte = u8::from(self.is_point(node));
            points += usize::from(*byte);
        }
        let mut passes = 0;
        loop {
            passes += 1;
            let mut changed = false;
            for node in 0..plan.len() {
                if plan[node] == 1 {
                    plan[node] = 0;
                    let faithful = self.faithful(plan);
                    plan[node] = u8::from(!faithful);
                    changed |= faithful;
                }
            }
            if !changed {
                return Counts {
                    points,
                    watched: plan.iter().filter(|&&byte| byte == 1).count(),
                    passes,
                };
            }
        }
    }
}
