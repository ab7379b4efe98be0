//! Prices by the house table worked out by hand, and the largest of them.
use dapohiru_compare::pricing::Memory;
use dapohiru_compare::wrapper::WRAPPER;
use dapohiru_generators::samples::{call, event, exit, pair, points, PLAIN_NODE};
use dapohiru_generators::zeros::zero_filled;
use dapohiru_generators::{prices, volumes};
use dapohiru_second::job::Job;
use dapohiru_second::pricing::Answer::{self, Cents, Refused};
use dapohiru_second::pricing::{price, Call};
use dapohiru_second::reading;

/// The answer of the library and of the second implementation, by the house table or by a price file.
pub fn answer_at(file: &[u8], plan: &[u8], volumes: &[u8], prices: Option<&[u8]>) -> Answer {
    let job = reading::job(file);
    let call = Call {
        file_len: file.len(),
        held: job.as_ref().map_err(|&number| number),
        plan,
        volumes,
        prices,
    };
    let wanted = price(&call, None);
    let answer = Memory::new(WRAPPER).call(file, plan, volumes, prices);
    assert_eq!(
        answer,
        Ok(wanted),
        "plan {plan:?}: {}",
        volumes.escape_ascii()
    );
    wanted
}

/// The answer by the house table, which is the one by its file, too.
fn answer(file: &[u8], plan: &[u8], volumes: &[u8]) -> Answer {
    let answer = answer_at(file, plan, volumes, None);
    let by_file = answer_at(file, plan, volumes, Some(&prices::house()));
    assert_eq!(by_file, answer, "plan {plan:?}: {}", volumes.escape_ascii());
    answer
}

/// The file of these lines.
pub fn lines(lines: &[&str]) -> Vec<u8> {
    let lines = lines.iter().flat_map(|line| [line, "\n"]);
    lines.collect::<String>().into_bytes()
}

/// The plans of PAIR: all points watched, planning's own, none watched.
pub const ALL: [u8; 3] = [1, 1, 1];
pub const OWN: [u8; 3] = [0, 1, 1];
pub const NONE: [u8; 3] = [0, 0, 0];

/// A volume file with a thousand events at each node of PAIR.
pub fn thousands() -> Vec<u8> {
    volumes::file(&[1_000; 3])
}

#[test]
fn whole_cents_are_the_price() {
    let file = pair().file();
    // 20 + 20 + 30, 20 + 30, nothing
    assert_eq!(answer(&file, &ALL, &thousands()), Cents(70));
    assert_eq!(answer(&file, &OWN, &thousands()), Cents(50));
    assert_eq!(answer(&file, &NONE, &thousands()), Cents(0));
    // 50 * 20 thousandths of a cent
    assert_eq!(answer(&file, &ALL, &volumes::file(&[50, 0, 0])), Cents(1));
}

#[test]
fn part_of_a_cent_counts_as_a_cent_once() {
    let file = pair().file();
    for (events, cents) in [
        // 1,010 thousandths of a cent; 990; 70; none
        ([49, 0, 1], 2),
        ([0, 0, 33], 1),
        ([1, 1, 1], 1),
        ([0, 0, 0], 0),
        // 1,000 by 20 + 980; 1,020
        ([1, 49, 0], 1),
        ([1, 50, 0], 2),
        // 69,999,930
        ([999_999; 3], 70_000),
    ] {
        let answer = answer(&file, &ALL, &volumes::file(&events));
        assert_eq!(answer, Cents(cents), "{events:?}");
    }
}

#[test]
fn unwatched_points_plain_nodes_and_calls_do_not_count() {
    let file = pair().file();
    let volumes = volumes::file(&[999_999, 1_000, 1_000]);
    assert_eq!(answer(&file, &OWN, &volumes), Cents(50));
    let mixed = mixed().file();
    let volumes = volumes::file(&[1_000, 999_999, 999_999, 1_000]);
    assert_eq!(answer(&mixed, &[1, 0, 0, 1], &volumes), Cents(45));
}

/// A point of symbol 0, a plain node, a call and a point of symbol 1 in a row.
fn mixed() -> Job {
    let mut nodes = vec![event(0), PLAIN_NODE, call(2), exit(event(1), 0)];
    nodes[0].entry = 1;
    Job {
        symbols: 2,
        finals: vec![0],
        next: vec![vec![0, 0]],
        nodes,
        edges: vec![(0, 1), (1, 2), (2, 3)],
    }
}

#[test]
fn every_symbol_has_its_price() {
    for symbol in 0..16 {
        let file = points(symbol, 1).file();
        for (events, cents) in [
            (1_000, 20 + 5 * symbol),
            (2_000, 40 + 10 * symbol),
            (0, 0),
            (1, 1),
            // 999,999 thousandths of the price are a part of a cent below a thousand times it
            (999_999, 1_000 * (20 + 5 * symbol)),
        ] {
            let answer = answer(&file, &[1], &volumes::file(&[events]));
            assert_eq!(answer, Cents(cents), "{events} of symbol {symbol}");
        }
    }
}

#[test]
fn largest_price_is_48639952_cents() {
    let file = points(15, 512).file();
    let most = volumes::file(&[999_999; 512]);
    assert_eq!(most.len(), dapohiru::VOLUMES_LEN);
    for file in [file.clone(), zero_filled(file)] {
        assert_eq!(answer(&file, &[1; 512], &most), Cents(48_639_952));
        assert_eq!(answer(&file, &[0; 512], &most), Cents(0));
        let mut plan = [1; 512];
        plan[300] = 0;
        // 94,999,905 thousandths of a cent less
        assert_eq!(answer(&file, &plan, &most), Cents(48_544_952));
    }
}

#[test]
fn zeros_before_the_digits_change_no_price() {
    let zeros = lines(&["V000000001000", "V  0001 01000", "V     2001000"]);
    assert_eq!(answer(&pair().file(), &ALL, &zeros), Cents(70));
    let filled = zero_filled(pair().file());
    assert_eq!(answer(&filled, &ALL, &thousands()), Cents(70));
    assert_eq!(answer(&filled, &ALL, &zeros), Cents(70));
}

#[test]
fn volume_file_that_is_not_exactly_these_lines_is_16() {
    let file = pair().file();
    let cut = &thousands()[..28];
    let [zero, one, two] = ["V     0  1000", "V     1  1000", "V     2  1000"];
    for volumes in [
        // missing lines and bytes, and more of them
        cut.to_vec(),
        vec![],
        lines(&[zero, one, two, "V     3  1000"]),
        [&thousands()[..], b"\n"].concat(),
        thousands()[..41].to_vec(),
        // another order, letter or field
        lines(&[one, zero, two]),
        lines(&[zero, one, one]),
        lines(&[zero, "P     1  1000", two]),
        lines(&[zero, "v     1  1000", two]),
        lines(&[zero, "V     1      ", two]),
        lines(&[zero, "V     1  -100", two]),
        lines(&[zero, "V     1 1000 ", two]),
        lines(&[zero, "V     10 1000", two]),
        lines(&["V     1  1000", "V     2  1000", "V     3  1000"]),
    ] {
        let answer = answer(&file, &ALL, &volumes);
        assert_eq!(answer, Refused(16), "{}", volumes.escape_ascii());
    }
}

#[test]
fn refusals_come_in_their_order() {
    let (pair, cut) = (pair().file(), &thousands()[..28]);
    assert_eq!(answer(&pair, &[1, 2, 1], cut), Refused(12));
    let volumes = volumes::file(&[1_000; 4]);
    assert_eq!(
        answer(&mixed().file(), &[1, 0, 1, 1], &volumes),
        Refused(12)
    );
    assert_eq!(answer(&pair, &[1, 2], cut), Refused(11));
    assert_eq!(answer(&pair, &[1, 1, 1, 0], &thousands()), Refused(11));
    assert_eq!(answer(&pair[..26], &[1, 2], cut), Refused(3));
    assert_eq!(answer(&pair[..27], &[1, 2], cut), Refused(4));
}
