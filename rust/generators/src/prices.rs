//! Price files (document 02, "An association's own journal prices"): random ones, with any zeros before their
//! numbers, the one of the house table, and ones with a fault or with damage.
use crate::numbered::{self, near_limits};
use crate::random::Random;
use dapohiru_second::numbered::PRICES;
use dapohiru_second::pricing::{self, Prices, SYMBOLS};
use std::array;

/// The prices of all symbols: those of the house table, the same at each, or any numbers with many at the limits.
pub fn cents(random: &mut Random) -> Prices {
    match random.below(8) {
        0 => [0; SYMBOLS],
        1 => [PRICES.most; SYMBOLS],
        2 => pricing::house(),
        _ => array::from_fn(|_| near_limits(random, &[9, 99, 256, 1_000, PRICES.most])),
    }
}

/// The price file of these prices, without zeros before its numbers.
pub fn file(cents: &Prices) -> Vec<u8> {
    PRICES.file(cents)
}

/// The price file of the house table, without zeros before its numbers.
pub fn house() -> Vec<u8> {
    file(&pricing::house())
}

/// A price file with any zeros.
pub fn any(random: &mut Random) -> Vec<u8> {
    let cents = cents(random);
    numbered::any(random, PRICES, &cents)
}

/// A file like one, with any zeros and one fault: it is not exactly these lines.
pub fn refused(random: &mut Random) -> Vec<u8> {
    let cents = cents(random);
    numbered::refused(random, PRICES, &cents)
}

/// A file like one, with any zeros and with other bytes, which it may be sound with.
pub fn damaged(random: &mut Random) -> Vec<u8> {
    let cents = cents(random);
    numbered::damaged(random, PRICES, &cents)
}
