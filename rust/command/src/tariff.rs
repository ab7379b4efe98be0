//! What events cost: the prices of the house, or an association's own.
use crate::input::{self, Input};
use dapohiru::Refusal;
use dapohiru_second::job::Job;
use dapohiru_second::numbered::VOLUMES;
use std::ffi::OsStr;

/// The prices that a plan is priced by.
pub enum Tariff {
    House,
    /// Those of a price file.
    Own(Input),
}

impl Tariff {
    /// The prices of the file that is named, or those of the house.
    pub fn read(file: Option<&OsStr>) -> Result<Self, String> {
        match file {
            None => Ok(Tariff::House),
            Some(file) => input::numbered(file).map(Tariff::Own),
        }
    }

    /// What a plan costs a day by the proved call, in cents.
    pub fn price(&self, job: &[u8], plan: &[u8], volumes: &[u8]) -> Result<u64, Refusal> {
        match self {
            Tariff::House => dapohiru::price(job, plan, volumes),
            Tariff::Own(prices) => dapohiru::price_by(job, plan, volumes, &prices.bytes),
        }
    }

    /// The same for a job that the proved call has accepted, and a plan and volumes that fit it.
    pub fn cents(&self, file: &Input, plan: &[u8], volumes: &[u8]) -> Result<u64, String> {
        self.price(&file.bytes, plan, volumes)
            .map_err(|refusal| format!("{}: {refusal}", file.shown))
    }

    /// The cents per thousand events at each point of a job: the price of a thousand events there alone.
    pub fn rates(&self, file: &Input, job: &Job) -> Result<Vec<u64>, String> {
        let thousands = VOLUMES.file(&vec![1_000; job.nodes.len()]);
        let rate = |node| self.cents(file, &job.plan_of(&[node]), &thousands);
        job.points().into_iter().map(rate).collect()
    }

    /// Whose prices they are, as a line, if they are not the house's.
    pub fn words(&self) -> String {
        match self {
            Tariff::House => String::new(),
            Tariff::Own(prices) => format!(
                "The cents per thousand are the association's own, from {}.\n",
                prices.shown
            ),
        }
    }
}
