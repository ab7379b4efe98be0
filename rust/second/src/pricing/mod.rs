//! The journal price of a plan as two calls (document 02, "Journal price of a plan" and "An association's own
//! journal prices"): their refusals in order, and the price.
mod cents;
mod files;

use crate::checking::file_and_plan;
use crate::job::Job;
use crate::reading::LONGEST;
use crate::slip::Slip;
use std::array;

/// How many symbols have a price, however many a job has.
pub const SYMBOLS: usize = 16;

/// Cents per thousand events of each symbol.
pub type Prices = [u64; SYMBOLS];

/// The house table: "symbol s costs 20 + 5 times s cents per thousand events".
pub fn house() -> Prices {
    rising_from(20)
}

/// Prices from this one on, each five cents above the one before.
fn rising_from(first: u64) -> Prices {
    array::from_fn(|symbol| first + 5 * symbol as u64)
}

/// One call of pricing.
#[derive(Clone, Copy)]
pub struct Call<'a> {
    pub file_len: usize,
    /// The job that the file holds, or the refusal, 3 to 10, that it deserves.
    pub held: Result<&'a Job, u64>,
    pub plan: &'a [u8],
    /// The volume file.
    pub volumes: &'a [u8],
    /// The price file, in the call that gets one; the other goes by the house table.
    pub prices: Option<&'a [u8]>,
}

/// The answer to a call.
#[derive(Clone, Copy, Debug, PartialEq, Eq, PartialOrd, Ord)]
pub enum Answer {
    /// The price of a day.
    Cents(u64),
    Refused(u64),
}

/// The answer to a call, with one slip or with none.
pub fn price(call: &Call, slip: Option<Slip>) -> Answer {
    let pricing = Pricing { slip };
    match pricing.accepted(call) {
        Ok(accepted) => Answer::Cents(pricing.cents(call.plan, &accepted)),
        Err(number) => Answer::Refused(number),
    }
}

/// What an accepted call has: the job, the volumes of its nodes, and the prices.
struct Accepted<'a> {
    job: &'a Job,
    volumes: Vec<u64>,
    prices: Prices,
}

/// Pricing, with one slip or with none.
#[derive(Clone, Copy)]
struct Pricing {
    slip: Option<Slip>,
}

impl Pricing {
    fn slips(self, slip: Slip) -> bool {
        self.slip == Some(slip)
    }

    /// What the call has, or the first refusal that applies.
    fn accepted<'a>(self, call: &Call<'a>) -> Result<Accepted<'a>, u64> {
        let volumes = call.held.and_then(|job| self.volumes(call, job));
        let prices = self.prices(call);
        let too_long = self.is_too_long(call).then_some(1);
        let [unread, length, bytes] = file_and_plan(call.held, call.plan, self.slip);
        let (of_volumes, of_prices) = (volumes.as_ref().err().copied(), prices.err());
        let mut tests = vec![too_long, unread, length, bytes, of_volumes, of_prices];
        // a slip tests one of the two files before another test
        let moved = match self.slip {
            Some(Slip::VolumesBeforePlanBytes) => Some((4, 3)),
            Some(Slip::VolumesBeforePlan) => Some((4, 2)),
            Some(Slip::PricesBeforeVolumes) => Some((5, 4)),
            Some(Slip::PricesBeforePlanBytes) => Some((5, 3)),
            Some(Slip::PricesBeforeJob) => Some((5, 0)),
            _ => None,
        };
        if let Some((from, to)) = moved {
            let test = tests.remove(from);
            tests.insert(to, test);
        }
        match tests.into_iter().flatten().next() {
            Some(number) => Err(number),
            None => Ok(Accepted {
                job: call.held?,
                volumes: volumes?,
                prices: prices?,
            }),
        }
    }

    /// Whether a file is longer than the job file may be; only a slip asks it of another file.
    fn is_too_long(self, call: &Call) -> bool {
        let len = match self.slip {
            Some(Slip::LongVolumesAs1) => call.file_len.max(call.volumes.len()),
            Some(Slip::LongPricesAs1) => call.file_len.max(call.prices.map_or(0, <[u8]>::len)),
            _ => call.file_len,
        };
        len > LONGEST
    }
}

/// Whether a plan has a point watched; only a slip gives it another length than there are nodes.
fn is_watched(plan: &[u8], place: usize) -> bool {
    plan.get(place).is_some_and(|&byte| byte != 0)
}
