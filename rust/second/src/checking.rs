//! The plan check as a call: its refusals in order, its answer, and what it leaves in the work buffer.
use crate::job::{Job, EVENT, REENTRANT};
use crate::reading::{LONGEST, WORK};
use crate::search::{difference, Difference};
use crate::slip::Slip;
use crate::walk::Walks;
use crate::work::Left;

/// What a file holds: a job, or the refusal, 3 to 10, that it deserves.
pub type Held<'a> = Result<&'a Walks<'a>, u64>;

/// One call of the plan check.
#[derive(Clone, Copy)]
pub struct Call<'a> {
    pub file_len: usize,
    /// What the file holds.
    pub held: Held<'a>,
    pub plan: &'a [u8],
    pub work_len: usize,
}

/// The answer to a call.
#[derive(Clone, Debug, PartialEq, Eq)]
pub enum Answer {
    Faithful,
    /// With a walk that shows it.
    Different(Difference),
    Refused(u64),
}

/// What a call leaves: its answer, and how many bytes of the work buffer are zero from its start on.
/// The bytes past them are as they were.
#[derive(Clone, Debug, PartialEq, Eq)]
pub struct Outcome {
    pub answer: Answer,
    pub cleared: usize,
}

/// The plan check, with one slip or with none. A slip of walks stands in the call's job.
pub fn check(call: &Call, slip: Option<Slip>) -> Outcome {
    let answer = match refusal(call, slip) {
        Some(number) => Answer::Refused(number),
        None => {
            let walks = call.held.expect("an unread file is refused");
            match difference(walks, &plan_taken(call, walks.job)) {
                None => Answer::Faithful,
                Some(difference) => Answer::Different(difference),
            }
        }
    };
    let unchanged = match answer {
        Answer::Refused(1 | 2) => slip != Some(Slip::ClearsAfterOneAndTwo),
        Answer::Refused(11 | 12) => slip == Some(Slip::PlanRefusalLeavesWork),
        Answer::Different(_) => slip == Some(Slip::DifferentLeavesWork),
        _ => false,
    };
    let rest_cleared = match (slip, &answer) {
        (Some(Slip::ClearsAllOfWork), _) => !unchanged,
        (Some(Slip::CheckOfLongFileClearsRest), Answer::Refused(1))
        | (Some(Slip::CheckOfNoJobClearsRest), Answer::Refused(3..=10))
        | (Some(Slip::PlanRefusalClearsRest), Answer::Refused(11 | 12)) => true,
        _ => false,
    };
    let left = Left {
        unchanged,
        rest_cleared,
    };
    Outcome {
        cleared: left.cleared(call.work_len),
        answer,
    }
}

/// The first refusal that applies.
fn refusal(call: &Call, slip: Option<Slip>) -> Option<u64> {
    let too_long = (call.file_len > LONGEST).then_some(1);
    let too_short = (call.work_len < WORK).then_some(2);
    let job = call.held.map(|walks| walks.job);
    let [unread, length, bytes] = file_and_plan(job, call.plan, slip);
    let tests = match slip {
        Some(Slip::WorkBeforeLength) => [too_short, too_long, unread, length, bytes],
        Some(Slip::WorkAfterFile) => [too_long, unread, too_short, length, bytes],
        _ => [too_long, too_short, unread, length, bytes],
    };
    tests.into_iter().flatten().next()
}

/// The refusals that apply to what a file holds and to a plan, in the order in which they are tested: 3 to
/// 10, 11, 12.
pub(crate) fn file_and_plan(
    held: Result<&Job, u64>,
    plan: &[u8],
    slip: Option<Slip>,
) -> [Option<u64>; 3] {
    let unread = held.err();
    let above_one = plan.iter().any(|&byte| byte > 1).then_some(12);
    let (length, bytes) = match held {
        Ok(job) => (
            length_refusal(job, plan, slip),
            bytes_refusal(job, plan, slip),
        ),
        Err(_) => (None, None),
    };
    match slip {
        Some(Slip::PlanBytesBeforeFile) => [above_one, unread, length.or(bytes)],
        Some(Slip::PlanBytesBeforeLength) => [unread, bytes, length],
        _ => [unread, length, bytes],
    }
}

/// 11: a plan is not exactly N bytes.
fn length_refusal(job: &Job, plan: &[u8], slip: Option<Slip>) -> Option<u64> {
    let nodes = job.nodes.len();
    let refused = match slip {
        Some(Slip::LongerPlanAccepted) => plan.len() < nodes,
        Some(Slip::ShorterPlanAccepted) => plan.len() > nodes,
        _ => plan.len() != nodes,
    };
    refused.then_some(11)
}

/// 12: a plan byte is above 1, or is 1 at a node that is no event.
fn bytes_refusal(job: &Job, plan: &[u8], slip: Option<Slip>) -> Option<u64> {
    let nodes = job.nodes.len();
    let tested = match slip {
        Some(Slip::LastPlanByteNotTested) => nodes - 1,
        Some(Slip::LongerPlanAccepted) => nodes,
        _ => plan.len(),
    };
    let refused = plan.iter().take(tested).enumerate().any(|(node, &byte)| {
        let is_event = match job.nodes.get(node).map(|of| of.kind) {
            Some(REENTRANT) => slip == Some(Slip::PlanByteAtReentrantAccepted),
            kind => kind == Some(EVENT),
        };
        (byte > 1 && slip != Some(Slip::PlanByteAboveOneAccepted))
            || (byte == 1 && !is_event && slip != Some(Slip::PlanByteAtOtherNodeAccepted))
    });
    refused.then_some(12)
}

/// The plan of N bytes that the walks are searched under; only a slip alters what was given.
fn plan_taken(call: &Call, job: &Job) -> Vec<u8> {
    let bytes = call
        .plan
        .iter()
        .map(|&byte| byte.min(1))
        .chain([0].into_iter().cycle());
    bytes.take(job.nodes.len()).collect()
}
