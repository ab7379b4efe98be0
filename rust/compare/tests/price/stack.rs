//! How much of the stack the calls take, which are lent no work buffer.
use dapohiru::numbers::{price, price_by, ACCEPTED};
use dapohiru_compare::pricing::{cases, Case};
use dapohiru_compare::stack::{said_by, Stack};
use dapohiru_generators::random::Random;
use dapohiru_generators::samples::pair;
use dapohiru_generators::sized::{self, FULL};
use dapohiru_generators::small;

/// How much more than a call takes the header may say.
const ROOM: usize = 8_192;

/// Makes the call, and gives its number.
fn call(case: &Case) -> u64 {
    let Case {
        checking,
        volumes,
        prices,
    } = case;
    match prices {
        None => price(&checking.on.file, &checking.plan, volumes),
        Some(prices) => price_by(&checking.on.file, &checking.plan, volumes, prices),
    }
}

#[test]
fn calls_take_less_of_the_stack_than_the_header_says() {
    let mut random = Random::of_this_run();
    let mut stack = Stack::default();
    // by the house table and by a price file, refused and with a price
    let mut most = [[0; 2]; 2];
    for number in 0..400 {
        let job = match number {
            0 => pair(),
            1..=10 => sized::job(&mut random, FULL),
            _ => small::job(&mut random),
        };
        for case in cases(&mut random, &job) {
            let (taken, number) = stack.taken_by(|| call(&case));
            let by_file = usize::from(case.prices.is_some());
            let most = &mut most[by_file][usize::from(number >= ACCEPTED)];
            *most = taken.max(*most);
        }
    }
    for (call, [refused, priced]) in ["price", "price_by"].iter().zip(most) {
        println!(
            "{call}: at most {refused} bytes where it is refused, {priced} where there is a price"
        );
    }
    // for each call, and on the page for both at once
    let said = said_by(
        "docs/SERVICE.md",
        "",
        &["`dapohiru_price`", "`dapohiru_price_by`"],
    );
    for (path, at) in [
        ("include/dapohiru.h", " dapohiru_price("),
        ("include/dapohiru.h", " dapohiru_price_by("),
        ("rust/src/price.rs", "pub fn price("),
        ("rust/src/price.rs", "pub fn price_by("),
    ] {
        assert_eq!(said, said_by(path, at, &[]), "{path} at {at}");
    }
    // where the loader binds `memset` at the first call, that takes some 3,000 bytes more
    let right = said - ROOM..said - 4_096;
    assert!(
        most.as_flattened().iter().all(|most| right.contains(most)),
        "{most:?}, and {said} is said"
    );
}
