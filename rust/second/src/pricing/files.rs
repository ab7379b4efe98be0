//! What a call of pricing is lent beside the job and the plan: the volume file, and the price file, if it gets one.
use super::{house, is_watched, rising_from, Call, Prices, Pricing, SYMBOLS};
use crate::job::{Job, EVENT, PLAIN};
use crate::numbered::{self, Lines, PRICES, VOLUMES};
use crate::reading;
use crate::slip::Slip;
use std::array;

impl Pricing {
    /// "One V line per node in order: node, and events a day"; or 16, "the volume file is not exactly these
    /// lines".
    pub(super) fn volumes(self, call: &Call, job: &Job) -> Result<Vec<u64>, u64> {
        let mut lines = Lines {
            kind: VOLUMES,
            slip: self.slip.and_then(in_volumes),
            count: job.nodes.len(),
            rest: call.volumes,
        };
        let mut volumes = Vec::new();
        for (place, node) in job.nodes.iter().enumerate() {
            let volume = match self.slip {
                Some(Slip::VolumesOfPointsOnly) if node.kind != EVENT => 0,
                Some(Slip::UnwatchedVolumeNotTested) if !is_watched(call.plan, place) => {
                    lines.take().map(|_| 0)?
                }
                _ => lines.number(place)?,
            };
            volumes.push(match self.slip {
                Some(Slip::VolumeAtPlainRefused) if node.kind == PLAIN && volume != 0 => {
                    return Err(VOLUMES.refusal)
                }
                Some(Slip::VolumeCutTo16Bits) => volume % 65_536,
                _ => volume,
            });
        }
        lines.end()?;
        Ok(volumes)
    }

    /// The prices of the call's file, or of the house table where it has none.
    pub(super) fn prices(self, call: &Call) -> Result<Prices, u64> {
        let house = match self.slip {
            Some(Slip::HouseFrom25) => rising_from(25),
            _ => house(),
        };
        let Some(file) = call.prices else {
            return Ok(house);
        };
        let prices = match self.prices_in(file, call.held) {
            Err(_) if self.slips(Slip::HouseWherePricesAreWrong) => house,
            read => read?,
        };
        Ok(array::from_fn(|symbol| match self.slip {
            Some(Slip::HouseCounted) => house[symbol],
            Some(Slip::FirstPriceOfHouse) if symbol == 0 => house[symbol],
            Some(Slip::LastPriceOfHouse) if symbol == SYMBOLS - 1 => house[symbol],
            Some(Slip::PriceCutTo8Bits) => prices[symbol] % 256,
            Some(Slip::PriceCutTo3Digits) => prices[symbol] % 1_000,
            _ => prices[symbol],
        }))
    }

    /// "16 B lines in symbol order: symbol, and cents per thousand, 0 to 9,999"; or 28, "the file is not exactly
    /// these lines".
    fn prices_in(self, file: &[u8], held: Result<&Job, u64>) -> Result<Prices, u64> {
        let count = match held {
            Ok(job) if self.slips(Slip::PricesOfJobSymbolsOnly) => job.symbols as usize,
            _ => SYMBOLS,
        };
        let mut lines = Lines {
            kind: PRICES,
            slip: self.slip.and_then(in_prices),
            count,
            rest: file,
        };
        let mut prices = [0; SYMBOLS];
        for (symbol, price) in prices.iter_mut().enumerate().take(count) {
            *price = lines.number(symbol)?;
        }
        lines.end()?;
        Ok(prices)
    }
}

/// The slip that this one is in the lines of a volume file.
fn in_volumes(slip: Slip) -> Option<numbered::Slip> {
    Some(match slip {
        Slip::VolumesAs3And4 => numbered::Slip::FormAs3And4,
        Slip::LastVolumeMissingAccepted => numbered::Slip::LastLineMissingAccepted,
        Slip::VolumeEndByteMissingAccepted => numbered::Slip::EndByteMissingAccepted,
        Slip::BytesAfterVolumesAccepted => numbered::Slip::BytesAfterAccepted,
        Slip::VolumeLetterNotTested => numbered::Slip::LetterNotTested,
        Slip::VolumePlacesNotTested => numbered::Slip::PlacesNotTested,
        Slip::VolumeZerosRefused => numbered::Slip::Field(reading::Slip::LeadingZeroRefused),
        Slip::MostVolumeRefused => numbered::Slip::MostRefused,
        Slip::NoVolumeRefused => numbered::Slip::ZeroRefused,
        _ => return None,
    })
}

/// The slip that this one is in the lines of a price file.
fn in_prices(slip: Slip) -> Option<numbered::Slip> {
    Some(match slip {
        Slip::PricesAs3And4 => numbered::Slip::FormAs3And4,
        Slip::LastPriceMissingAccepted => numbered::Slip::LastLineMissingAccepted,
        Slip::PriceEndByteMissingAccepted => numbered::Slip::EndByteMissingAccepted,
        Slip::BytesAfterPricesAccepted => numbered::Slip::BytesAfterAccepted,
        Slip::PriceLetterNotTested => numbered::Slip::LetterNotTested,
        Slip::PricePlacesNotTested => numbered::Slip::PlacesNotTested,
        Slip::PriceZerosRefused => numbered::Slip::Field(reading::Slip::LeadingZeroRefused),
        Slip::PriceOf10000Accepted => numbered::Slip::MostByOneMore,
        Slip::MostPriceRefused => numbered::Slip::MostRefused,
        Slip::FreeSymbolRefused => numbered::Slip::ZeroRefused,
        _ => return None,
    })
}
