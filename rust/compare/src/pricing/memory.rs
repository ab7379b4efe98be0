//! One call on memory whose every byte is looked at afterwards.
use crate::library::Library;
use crate::memory::{Lent, PAST_FILE};
use dapohiru::numbers::ACCEPTED;
use dapohiru_generators::random::Random;
use dapohiru_second::job::spell;
use dapohiru_second::numbered::{Kind, PRICES, VOLUMES};
use dapohiru_second::pricing::Answer;

/// A file, and the bytes that stand right past it in memory.
pub type Split<'a> = (&'a [u8], &'a [u8]);

/// The memory that calls are made on.
pub struct Memory {
    library: Library,
    file: Lent,
    plan: Lent,
    volumes: Lent,
    prices: Lent,
}

impl Memory {
    /// Memory for calls of this library.
    pub fn new(library: Library) -> Self {
        let mut random = Random(1);
        let mut lent = || Lent::new(&mut random, 0, 1);
        Memory {
            library,
            file: lent(),
            plan: lent(),
            volumes: lent(),
            prices: lent(),
        }
    }

    /// Prices a plan by the house table, or by a price file if there is one, and looks at every byte that the call
    /// could reach. Past each file of numbered lines stands the line that would be next.
    pub fn call(
        &mut self,
        file: &[u8],
        plan: &[u8],
        volumes: &[u8],
        prices: Option<&[u8]>,
    ) -> Result<Answer, String> {
        let past_volumes = next_line(VOLUMES, volumes);
        let past_prices = prices.map(|prices| next_line(PRICES, prices));
        let prices = prices.zip(past_prices.as_deref());
        self.call_before(file, plan, (volumes, &past_volumes), prices)
    }

    /// The same, with these bytes past the volume file and past the price file.
    pub fn call_before(
        &mut self,
        file: &[u8],
        plan: &[u8],
        volumes: Split,
        prices: Option<Split>,
    ) -> Result<Answer, String> {
        self.file.holding(file, PAST_FILE);
        self.plan.holding(plan, &[]);
        self.volumes.holding(volumes.0, volumes.1);
        let (lent, past) = prices.unwrap_or_default();
        self.prices.holding(lent, past);
        let (file, plan, volumes) = (self.file.bytes(), self.plan.bytes(), self.volumes.bytes());
        let number = match prices {
            None => (self.library.price)(file, plan, volumes),
            Some(_) => (self.library.price_by)(file, plan, volumes, self.prices.bytes()),
        };
        let answer = match number.checked_sub(ACCEPTED) {
            Some(cents) => Answer::Cents(cents),
            None => Answer::Refused(number),
        };
        for (lent, name) in [
            (&self.file, "job file"),
            (&self.plan, "plan"),
            (&self.volumes, "volume file"),
            (&self.prices, "price file"),
        ] {
            if !lent.is_unchanged() {
                return Err(format!("{answer:?} changes the {name} or bytes beside it"));
            }
        }
        Ok(answer)
    }
}

/// The line of this kind that would be next in a file.
fn next_line(kind: Kind, file: &[u8]) -> Vec<u8> {
    spell(&[kind.line(file.len() / 14, 0)])
}
