//! Random numbers from a printed seed.
use std::sync::OnceLock;
use std::time::{SystemTime, UNIX_EPOCH};

/// The seed of this run: `DAPOHIRU_SEED`, or the clock.
pub fn seed() -> u64 {
    static SEED: OnceLock<u64> = OnceLock::new();
    *SEED.get_or_init(|| {
        given_seed().unwrap_or_else(|| {
            let clock = SystemTime::now().duration_since(UNIX_EPOCH);
            clock.expect("the clock is past 1970").as_nanos() as u64
        })
    })
}

/// The seed that `DAPOHIRU_SEED` gives, if it is set.
fn given_seed() -> Option<u64> {
    let text = std::env::var("DAPOHIRU_SEED").ok()?;
    Some(text.parse().expect("DAPOHIRU_SEED is a decimal number"))
}

/// A random number generator (splitmix64).
pub struct Random(pub u64);

impl Random {
    /// The generator of this run; says its seed.
    pub fn of_this_run() -> Self {
        println!("seed {} (DAPOHIRU_SEED repeats it)", seed());
        Random(seed())
    }

    /// A generator from this seed, or from `DAPOHIRU_SEED`; says its seed.
    pub fn fixed(seed: u64) -> Self {
        let seed = given_seed().unwrap_or(seed);
        println!("seed {seed} (DAPOHIRU_SEED gives another)");
        Random(seed)
    }

    /// Any number.
    pub fn number(&mut self) -> u64 {
        self.0 = self.0.wrapping_add(0x9e37_79b9_7f4a_7c15);
        let mut z = self.0;
        z = (z ^ z >> 30).wrapping_mul(0xbf58_476d_1ce4_e5b9);
        z = (z ^ z >> 27).wrapping_mul(0x94d0_49bb_1331_11eb);
        z ^ z >> 31
    }

    /// A number below `bound`.
    pub fn below(&mut self, bound: u64) -> u64 {
        self.number() % bound
    }

    /// A number from `low` to `high`.
    pub fn between(&mut self, low: u64, high: u64) -> u64 {
        low + self.below(high - low + 1)
    }

    /// A place in something that has `len` places.
    pub fn place(&mut self, len: usize) -> usize {
        self.below(len as u64) as usize
    }

    /// True once in `n` times.
    pub fn once_in(&mut self, n: u64) -> bool {
        self.below(n) == 0
    }

    /// One of these.
    pub fn pick<T: Copy>(&mut self, from: &[T]) -> T {
        from[self.place(from.len())]
    }

    /// Puts these in any order.
    pub fn shuffle<T>(&mut self, all: &mut [T]) {
        for place in (1..all.len()).rev() {
            all.swap(place, self.place(place + 1));
        }
    }

    /// A set out of `count` members: empty, full, or any.
    pub fn set(&mut self, count: u64) -> u64 {
        match self.below(6) {
            0 => 0,
            1 => (1 << count) - 1,
            _ => self.below(1 << count),
        }
    }

    /// A set out of `count` members that is not empty.
    pub fn some_set(&mut self, count: u64) -> u64 {
        self.between(1, (1 << count) - 1)
    }

    /// Random bytes.
    pub fn fill(&mut self, bytes: &mut [u8]) {
        for part in bytes.chunks_mut(8) {
            let from = self.number().to_le_bytes();
            part.copy_from_slice(&from[..part.len()]);
        }
    }
}
