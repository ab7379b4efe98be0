//! The journal price of a plan, by the house table and by a price file.
use crate::check::LONGEST;
use crate::read::{take, Decoded};

/// Cents per thousand events of each symbol.
type Prices = [u64; 16];

/// The house table.
const HOUSE: Prices = [
    20, 25, 30, 35, 40, 45, 50, 55, 60, 65, 70, 75, 80, 85, 90, 95,
];
/// The greatest price in a price file.
const MOST_PRICE: u64 = 9_999;

/// The price of a plan in cents, or the refusal. The job is decoded into the buffer.
pub fn price(job: &mut Decoded, file: &[u8], plan: &[u8], volumes: &[u8]) -> Result<u64, u64> {
    priced(job, file, plan, volumes, &HOUSE)
}

/// The price of a plan by a price file in cents, or the refusal. The job is decoded into the buffer.
pub fn price_by(
    job: &mut Decoded,
    file: &[u8],
    plan: &[u8],
    volumes: &[u8],
    prices: &[u8],
) -> Result<u64, u64> {
    // its refusal is the last
    let prices = decode(prices);
    let cents = priced(job, file, plan, volumes, prices.as_ref().unwrap_or(&HOUSE))?;
    prices.and(Ok(cents))
}

/// The price of a plan at these prices, or the refusal of job, plan or volume file.
fn priced(
    job: &mut Decoded,
    file: &[u8],
    plan: &[u8],
    volumes: &[u8],
    prices: &Prices,
) -> Result<u64, u64> {
    if file.len() > LONGEST {
        return Err(1);
    }
    job.decode(file)?;
    job.accept(plan)?;
    let nodes = &job.nodes[..job.node_count];
    let mut rest = volumes;
    let mut thousandths = 0;
    for (number, (node, &watched)) in nodes.iter().zip(plan).enumerate() {
        // no number of six columns is above 999,999
        let events = numbered(&mut rest, b'V', number).ok_or(16u64)?;
        if watched == 1 {
            thousandths += events * prices[usize::from(node.value)];
        }
    }
    if !rest.is_empty() {
        return Err(16);
    }
    Ok(thousandths.div_ceil(1_000))
}

/// The prices of a price file, or 28.
fn decode(file: &[u8]) -> Result<Prices, u64> {
    let mut rest = file;
    let mut prices = [0; 16];
    for (symbol, price) in prices.iter_mut().enumerate() {
        let number = numbered(&mut rest, b'B', symbol);
        *price = number.filter(|&price| price <= MOST_PRICE).ok_or(28u64)?;
    }
    if !rest.is_empty() {
        return Err(28);
    }
    Ok(prices)
}

/// Takes the line of this place, and gives its number.
fn numbered(rest: &mut &[u8], letter: u8, place: usize) -> Option<u64> {
    let mut line = [0; 2];
    take(rest, letter, &mut line).ok()?;
    let [named, number] = line;
    (named as usize == place).then_some(u64::from(number))
}
