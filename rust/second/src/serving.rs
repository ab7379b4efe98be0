//! Planning and listing as calls: their refusals in order, their answers, and what they leave in the
//! plan or listing buffer and in the work buffer.
use crate::listing::lines;
use crate::outcome;
use crate::planning::{plan, Planned};
use crate::reading::{LONGEST, WORK};
use crate::slip::Slip;
use crate::walk::Walks;
use crate::work::Left;

/// Which of the two calls it is.
#[derive(Clone, Copy, Debug, PartialEq, Eq, PartialOrd, Ord)]
pub enum Service {
    Plan,
    List,
}

impl Service {
    /// Both calls.
    pub const BOTH: [Service; 2] = [Service::Plan, Service::List];

    /// The least length of the buffer that it writes to.
    pub fn least(self) -> usize {
        match self {
            Service::Plan => 512,
            Service::List => 32_768,
        }
    }
}

/// What the two calls have for a job.
#[derive(Clone, Debug, PartialEq, Eq)]
pub struct Given {
    pub planned: Planned,
    pub listing: Vec<u8>,
    /// The nodes that are points.
    points: Vec<usize>,
    /// The slip that the walks have.
    pub slip: Option<Slip>,
}

impl Given {
    /// What there is for a job, with the slip that its walks have.
    pub fn of(walks: &Walks) -> Self {
        let planned = plan(walks);
        Given {
            listing: lines(walks, &planned),
            planned,
            points: walks.job.points(),
            slip: walks.slip,
        }
    }
}

/// One call.
#[derive(Clone, Copy)]
pub struct Call<'a> {
    pub service: Service,
    pub file_len: usize,
    /// What there is for the job that the file holds, or the refusal, 3 to 10, that it deserves.
    pub held: Result<&'a Given, u64>,
    pub work_len: usize,
    /// The length of the plan or listing buffer.
    pub lent_len: usize,
}

/// The answer to a call.
#[derive(Clone, Copy, Debug, PartialEq, Eq)]
pub enum Answer {
    /// With the counts of event nodes, watched points and passes.
    Planned([u64; 3]),
    /// With the length of the text.
    Listed(usize),
    Refused(u64),
}

/// What a call leaves in the plan or listing buffer and in the work buffer.
pub type Outcome = outcome::Outcome<Answer>;

/// What a call leaves, with one slip or with none. A slip of walks or of planning stands in what is
/// given for the job.
pub fn serve(call: &Call, slip: Option<Slip>) -> Outcome {
    let refused = refusal(call, slip);
    let (answer, mut written) = match (refused, call.held) {
        (None, Ok(given)) => accepted(call, given, slip),
        (refused, _) => {
            let number = refused.expect("an unread file is refused");
            (Answer::Refused(number), Vec::new())
        }
    };
    let by_file = matches!(refused, Some(3..));
    if by_file && slip == Some(Slip::RefusalClearsLent) {
        written = vec![Some(0); call.service.least()];
    }
    let unchanged = match refused {
        Some(1 | 2) => slip != Some(Slip::ClearsAfterOneAndTwo),
        Some(_) => slip == Some(Slip::FileRefusalLeavesWork),
        None => slip == Some(Slip::AcceptedLeavesWork),
    };
    let rest_cleared = match (slip, refused) {
        (Some(Slip::ClearsAllOfWork), _) => !unchanged,
        (Some(Slip::LongFileClearsRest), Some(1))
        | (Some(Slip::ShortLentClearsRest), Some(2))
        | (Some(Slip::FileRefusalClearsRest), Some(3..)) => true,
        _ => false,
    };
    let left = Left {
        unchanged,
        rest_cleared,
    };
    Outcome {
        answer,
        written,
        cleared: left.cleared(call.work_len),
    }
}

/// The first refusal that applies.
fn refusal(call: &Call, slip: Option<Slip>) -> Option<u64> {
    let too_long = (call.file_len > LONGEST).then_some(1);
    let work = (call.work_len < WORK).then_some(2);
    let unread = call.held.err();
    let least = match (slip, call.held, call.service) {
        (Some(Slip::ShorterLentAccepted), Ok(given), Service::Plan) => given.planned.plan.len(),
        (Some(Slip::ShorterLentAccepted), Ok(given), Service::List) => given.listing.len(),
        _ => call.service.least(),
    };
    let lent = (call.lent_len < least).then_some(2);
    let tests = match slip {
        Some(Slip::WorkBeforeLength) => [work, too_long, lent, unread],
        Some(Slip::WorkAfterFile) => [too_long, lent, unread, work],
        Some(Slip::LentBeforeLength) => [lent, too_long, work, unread],
        Some(Slip::LentAfterFile) => [too_long, work, unread, lent],
        _ => [too_long, work, lent, unread],
    };
    tests.into_iter().flatten().next()
}

/// The answer of an accepted call, and what it writes.
fn accepted(call: &Call, given: &Given, slip: Option<Slip>) -> (Answer, Vec<Option<u8>>) {
    let Planned {
        plan,
        points,
        watched,
        passes,
    } = &given.planned;
    let (answer, bytes) = match call.service {
        Service::Plan => (Answer::Planned([*points, *watched, *passes]), plan),
        Service::List => (Answer::Listed(given.listing.len()), &given.listing),
    };
    let mut written: Vec<_> = bytes.iter().copied().map(Some).collect();
    match slip {
        Some(Slip::LentClearedPastText) => written.resize(call.lent_len, Some(0)),
        Some(Slip::OtherNodesNotWritten) if call.service == Service::Plan => {
            for (node, byte) in written.iter_mut().enumerate() {
                *byte = byte.filter(|_| given.points.contains(&node));
            }
            let last = written.iter().rposition(Option::is_some);
            written.truncate(last.map_or(0, |last| last + 1));
        }
        _ => {}
    }
    (answer, written)
}
