//! Prices by a price file worked out by hand, and the largest of them.
use crate::trials::{answer_at, lines, thousands, ALL, NONE, OWN};
use dapohiru_compare::pricing::Case;
use dapohiru_generators::samples::{pair, points};
use dapohiru_generators::zeros::zero_filled;
use dapohiru_generators::{prices, volumes};
use dapohiru_second::pricing::Answer::{self, Cents, Refused};

/// The answer for PAIR with a thousand events at each node, by this price file.
fn pair_by(plan: &[u8], prices: &[u8]) -> Answer {
    answer_at(&pair().file(), plan, &thousands(), Some(prices))
}

/// A price file in which all symbols are free but 0 and 2, which PAIR has.
fn seal_and_write(seal: u64, write: u64) -> Vec<u8> {
    let mut cents = [0; 16];
    (cents[0], cents[2]) = (seal, write);
    prices::file(&cents)
}

#[test]
fn prices_of_a_file_are_cents_per_thousand_events() {
    for (seal, write, [all, own, none]) in [
        // the house prices of the two
        (20, 30, [70, 50, 0]),
        (12, 150, [174, 162, 0]),
        // a free seal, a free write, and all free
        (0, 30, [30, 30, 0]),
        (20, 0, [40, 20, 0]),
        (0, 0, [0, 0, 0]),
        (9_999, 9_999, [29_997, 19_998, 0]),
    ] {
        let file = seal_and_write(seal, write);
        for file in [file.clone(), zero_filled(file)] {
            let answers = [ALL, OWN, NONE].map(|plan| pair_by(&plan, &file));
            assert_eq!(answers, [all, own, none].map(Cents), "{seal}, {write}");
        }
    }
}

#[test]
fn house_table_is_spelled_in_sixteen_lines() {
    let house = lines(&[
        "B     0    20",
        "B     1    25",
        "B     2    30",
        "B     3    35",
        "B     4    40",
        "B     5    45",
        "B     6    50",
        "B     7    55",
        "B     8    60",
        "B     9    65",
        "B    10    70",
        "B    11    75",
        "B    12    80",
        "B    13    85",
        "B    14    90",
        "B    15    95",
    ]);
    assert_eq!(house, prices::house());
    assert_eq!(house.len(), dapohiru::PRICES_LEN);
    for (plan, cents) in [(ALL, 70), (OWN, 50), (NONE, 0)] {
        assert_eq!(pair_by(&plan, &house), Cents(cents));
    }
}

#[test]
fn part_of_a_cent_by_a_file_counts_as_a_cent_once() {
    let file = pair().file();
    for (events, cents) in [
        // thousandths of a cent at 1, 0 and 9,999 cents: 1; 9,999; 10,000; 10,001; 1,001
        ([1, 0, 0], 1),
        ([0, 0, 1], 10),
        ([1, 0, 1], 10),
        ([1, 1, 1], 11),
        ([1_000, 1, 0], 2),
        ([0, 0, 0], 0),
        // 2 times 999,999, and 9,998,990,001
        ([999_999; 3], 10_000_990),
    ] {
        let prices = seal_and_write(1, 9_999);
        let answer = answer_at(&file, &ALL, &volumes::file(&events), Some(&prices));
        assert_eq!(answer, Cents(cents), "{events:?}");
    }
}

#[test]
fn every_symbol_has_the_price_of_its_line() {
    for symbol in 0..16 {
        let file = points(symbol as u64, 1).file();
        for price in [0, 1, 20, 255, 256, 999, 1_000, 9_998, 9_999] {
            let mut cents = [7; 16];
            cents[symbol] = price;
            let prices = prices::file(&cents);
            for (events, wanted) in [
                (0, 0),
                (1, price.div_ceil(1_000)),
                (1_000, price),
                (2_000, 2 * price),
                (999_999, (999_999 * price).div_ceil(1_000)),
            ] {
                let volumes = volumes::file(&[events]);
                let answer = answer_at(&file, &[1], &volumes, Some(&prices));
                assert_eq!(answer, Cents(wanted), "{events} of symbol {symbol}");
            }
        }
    }
}

#[test]
fn largest_price_by_a_file_is_5119482881_cents() {
    let Case {
        checking,
        volumes,
        prices,
    } = Case::greatest();
    let prices = prices.expect("it goes by a price file");
    assert_eq!(checking.on.file, points(15, 512).file());
    assert_eq!(volumes.len(), dapohiru::VOLUMES_LEN);
    assert_eq!(prices.len(), dapohiru::PRICES_LEN);
    for (file, prices) in [
        (checking.on.file.clone(), prices.clone()),
        (zero_filled(checking.on.file), zero_filled(prices)),
    ] {
        let answer = |plan: &[u8]| answer_at(&file, plan, &volumes, Some(&prices));
        // 512 * 999,999 * 9,999 are 5,119,482,880,512 thousandths
        assert_eq!(answer(&[1; 512]), Cents(5_119_482_881));
        assert_eq!(answer(&[0; 512]), Cents(0));
        let mut plan = [1; 512];
        plan[300] = 0;
        // 9,998,990,001 thousandths of a cent less
        assert_eq!(answer(&plan), Cents(5_109_483_891));
    }
}

#[test]
fn price_file_that_is_not_exactly_these_lines_is_28() {
    let house = prices::house();
    let with = |line: usize, text: &str| {
        let mut file = house.clone();
        file.splice(14 * line..14 * line + 13, text.bytes());
        file
    };
    let swapped = [&house[14..28], &house[..14], &house[28..]].concat();
    for prices in [
        // missing lines and bytes, and more of them
        vec![],
        house[..210].to_vec(),
        house[..223].to_vec(),
        house[14..].to_vec(),
        [&house[..], b"B    16   100\n"].concat(),
        [&house[..], b"\n"].concat(),
        [&b"\xef\xbb\xbf"[..], &house].concat(),
        // another order, letter or field
        swapped,
        with(1, "B     0    25"),
        with(15, "B    16    95"),
        with(3, "V     3    35"),
        with(3, "b     3    35"),
        with(3, "B     3      "),
        with(3, "B     3   -35"),
        with(3, "B     3   3.5"),
        with(3, "B     3   35 "),
        with(3, "B     3 0  35"),
        with(3, "B     3    35\r"),
        // prices past the limit
        with(0, "B     0 10000"),
        with(15, "B    15 10000"),
        with(15, "B    15999999"),
    ] {
        let answer = pair_by(&ALL, &prices);
        assert_eq!(answer, Refused(28), "{}", prices.escape_ascii());
    }
}

#[test]
fn price_file_is_looked_at_last() {
    let (pair, cut) = (pair().file(), &thousands()[..28]);
    let wrong = Some(&b"B     0    20\n"[..]);
    let answer = |file: &[u8], plan: &[u8], volumes: &[u8]| answer_at(file, plan, volumes, wrong);
    assert_eq!(answer(&pair, &ALL, &thousands()), Refused(28));
    assert_eq!(answer(&pair, &ALL, cut), Refused(16));
    assert_eq!(answer(&pair, &[1, 2, 1], &thousands()), Refused(12));
    assert_eq!(answer(&pair, &[1, 1], &thousands()), Refused(11));
    assert_eq!(answer(&pair[..26], &ALL, &thousands()), Refused(3));
    assert_eq!(answer(&pair[..27], &ALL, &thousands()), Refused(4));
    let long = [&pair[..], &vec![b'\n'; dapohiru::JOB_LEN]].concat();
    assert_eq!(answer(&long, &ALL, &thousands()), Refused(1));
}
