//! What the events of a plan cost.
use super::{is_watched, Accepted, Prices, Pricing, SYMBOLS};
use crate::job::{Job, Node, EVENT, PLAIN};
use crate::slip::Slip;

impl Pricing {
    /// "The sum over watched points of volume times price, divided by 1,000 once, and a part of a cent counts
    /// as a cent."
    pub(super) fn cents(self, plan: &[u8], accepted: &Accepted) -> u64 {
        let Accepted {
            job,
            volumes,
            prices,
        } = accepted;
        let nodes = job.nodes.iter().enumerate();
        let costs: Vec<u64> = nodes
            .filter(|&(place, node)| self.counts(place, node, job, plan))
            .map(|(place, node)| volumes[place] * self.price(place, node, prices))
            .collect();
        let sum: u64 = costs.iter().sum();
        match self.slip {
            Some(Slip::RoundedDown) => sum / 1_000,
            Some(Slip::RoundedToNearest) => (sum + 500) / 1_000,
            Some(Slip::WholeCentsRaised) => sum / 1_000 + 1,
            Some(Slip::RoundedPerPoint) => costs.iter().map(|cost| cost.div_ceil(1_000)).sum(),
            Some(Slip::SumCutTo32Bits) => u64::from(sum as u32).div_ceil(1_000),
            Some(Slip::CentsCutTo32Bits) => u64::from(sum.div_ceil(1_000) as u32),
            _ => sum.div_ceil(1_000),
        }
    }

    /// Whether the volume of a node counts.
    fn counts(self, place: usize, node: &Node, job: &Job, plan: &[u8]) -> bool {
        match node.kind {
            _ if place + 1 == job.nodes.len() && self.slips(Slip::LastNodeNotCounted) => false,
            EVENT => is_watched(plan, place) || self.slips(Slip::UnwatchedCounted),
            PLAIN => self.slips(Slip::PlainNodesCounted),
            _ => self.slips(Slip::CallsCounted),
        }
    }

    /// What a thousand events at a node cost: the price of its symbol.
    fn price(self, place: usize, node: &Node, prices: &Prices) -> u64 {
        match (self.slip, node.kind) {
            (Some(Slip::OnePrice), _) => prices[0],
            (Some(Slip::PriceByNode), _) => prices[place % SYMBOLS],
            (_, EVENT) => prices[node.value as usize],
            _ => prices[0],
        }
    }
}
