//! Every refusal, alone and beside another fault.
use crate::agreement::{all_answers, Calls};
use dapohiru_compare::memory::Counts;
use dapohiru_compare::pricing::{cases, refused, By, Case, Memory};
use dapohiru_compare::wrapper::WRAPPER;
use dapohiru_generators::faults::NUMBERS;
use dapohiru_generators::random::Random;
use dapohiru_generators::samples::{call, event, exit, pair, points, reentrant, PAIR, PLAIN_NODE};
use dapohiru_generators::{prices, small, volumes};
use dapohiru_second::job::Job;
use dapohiru_second::numbered::PRICES;
use dapohiru_second::pricing::Answer;
use dapohiru_second::reading::LONGEST;

/// A job with nodes of all kinds under PAIR's rule.
pub fn all_kinds() -> Job {
    let nodes = vec![
        event(0),
        PLAIN_NODE,
        call(3),
        exit(event(2), 0),
        reentrant(1),
        event(1),
    ];
    PAIR.job(1, nodes, &[(0, 1), (1, 2), (2, 3), (3, 4), (4, 5)])
}

/// The refusals of pricing in their order; the last is of the call with a price file.
const REFUSALS: [u64; 13] = [1, 3, 4, 5, 6, 7, 8, 9, 10, 11, 12, 16, 28];

/// The refusals of this call.
fn refusals(by: By) -> &'static [u64] {
    match by {
        By::House => &REFUSALS[..12],
        By::File => &REFUSALS,
    }
}

#[test]
fn lower_of_two_faults_decides() {
    let mut random = Random::of_this_run();
    let mut calls = Calls::new();
    for by in By::BOTH {
        for (place, &one) in refusals(by).iter().enumerate() {
            for &other in &refusals(by)[place..] {
                for _ in 0..40 {
                    lower_decides(&mut random, &mut calls, by, [one, other]);
                }
            }
        }
    }
    calls.counts.print("one fault or two");
    calls.counts.came(REFUSALS.map(Some));
}

/// Asks that of these faults the first decides. A file has one fault at most.
fn lower_decides(random: &mut Random, calls: &mut Calls, by: By, [one, other]: [u64; 2]) {
    let from_file = |number: u64| NUMBERS.contains(&number);
    if from_file(one) && from_file(other) && one != other {
        return;
    }
    let job = all_kinds();
    let mut case = Case::any(random, &job, job.all_watched(), by);
    let mut faults = vec![one, other];
    // a file fault goes in first, since it makes another file; 1 makes that file too long
    faults.sort_by_key(|&number| (!from_file(number), number == 12));
    faults.dedup();
    for number in faults {
        case = case.with_fault(random, number);
    }
    let name = format!("{one} and {other}");
    let answer = calls.agree(&name, &case);
    assert_eq!(answer, Answer::Refused(one), "{name}: {}", case.words());
}

#[test]
fn all_faults_at_once_are_refused_by_the_first() {
    let mut random = Random::of_this_run();
    let mut calls = Calls::new();
    let job = all_kinds();
    for number in NUMBERS {
        for _ in 0..20 {
            let mut case = Case::any(&mut random, &job, job.all_watched(), By::File);
            // in the order from the last test to the first
            for fault in [28, 16, 12, 11, number, 1] {
                case = case.with_fault(&mut random, fault);
                let answer = calls.agree(format_args!("{fault}"), &case);
                assert_eq!(answer, Answer::Refused(fault), "{}", case.words());
                // without the price file there is no 28, and all else is as it was
                let by_house = Case {
                    prices: None,
                    ..case.clone()
                };
                let answer = calls.agree(format_args!("{fault}"), &by_house);
                let wanted = (fault != 28).then_some(fault);
                assert_eq!(refused(answer), wanted, "{}", case.words());
            }
        }
    }
    calls.counts.print("one fault more at a time");
}

/// Lengths far past this one, among them those that become it where their high bits are lost.
fn long_lengths(len: usize) -> impl Iterator<Item = usize> {
    let cut = (8..=16).map(move |bits| len + (1 << bits));
    cut.chain([7_168, LONGEST, LONGEST + 1, 65_536, 14 * 8_000])
}

#[test]
fn volume_file_of_any_other_length_is_16_however_long_it_is() {
    let mut memory = Memory::new(WRAPPER);
    let (file, plan, house) = (pair().file(), [1, 1, 1], prices::house());
    let thousands = volumes::file(&[1_000; 8_000]);
    for len in (0..=14 * 6).chain(long_lengths(14 * 3)) {
        let wanted = match len {
            42 => Answer::Cents(70),
            _ => Answer::Refused(16),
        };
        for prices in [None, Some(&house[..])] {
            let answer = memory.call(&file, &plan, &thousands[..len], prices);
            assert_eq!(answer, Ok(wanted), "{len} bytes");
        }
    }
}

#[test]
fn price_file_of_any_other_length_is_28_however_long_it_is() {
    let mut memory = Memory::new(WRAPPER);
    let (file, plan, volumes) = (pair().file(), [1, 1, 1], volumes::file(&[1_000; 3]));
    let lines = PRICES.file(&[100; 8_000]);
    for len in (0..=14 * 18).chain(long_lengths(dapohiru::PRICES_LEN)) {
        let answer = memory.call(&file, &plan, &volumes, Some(&lines[..len]));
        let wanted = match len {
            dapohiru::PRICES_LEN => Answer::Cents(300),
            _ => Answer::Refused(28),
        };
        assert_eq!(answer, Ok(wanted), "{len} bytes");
    }
}

#[test]
fn sixteen_prices_are_asked_for_however_many_symbols_the_job_has() {
    let mut calls = Calls::new();
    for symbols in 1..=16_usize {
        let mut job = points(0, 1);
        job.symbols = symbols as u64;
        job.next[0].truncate(symbols);
        let case = Case::of(&job, vec![1], volumes::file(&[1_000]));
        for lines in [symbols - 1, symbols, symbols + 1, 15, 16, 17] {
            let case = case.clone().by(PRICES.file(&vec![300; lines]));
            let answer = calls.agree(format_args!("{symbols} symbols"), &case);
            let wanted = match lines {
                16 => Answer::Cents(300),
                _ => Answer::Refused(28),
            };
            assert_eq!(answer, wanted, "{lines} lines for {symbols} symbols");
        }
    }
}

#[test]
fn files_for_one_node_more_or_fewer_are_16() {
    let mut random = Random::of_this_run();
    let mut calls = Calls::new();
    for nodes in [1, 2, 3, 255, 256, 257, 510, 511, 512] {
        let job = PAIR.job(1, vec![event(2); nodes], &[]);
        for lines in [nodes - 1, nodes, nodes + 1, 2 * nodes] {
            for by in By::BOTH {
                let mut case = Case::any(&mut random, &job, job.all_watched(), by);
                case.volumes = volumes::any(&mut random, lines);
                let answer = calls.agree(format_args!("{nodes} nodes"), &case);
                let wanted = (lines != nodes).then_some(16);
                assert_eq!(refused(answer), wanted, "{lines} lines for {nodes} nodes");
            }
        }
    }
}

#[test]
fn empty_buffers_are_lent_too() {
    let mut memory = Memory::new(WRAPPER);
    let (file, volumes, prices) = (pair().file(), volumes::file(&[1_000; 3]), prices::house());
    let mut answer = |file: &[u8], plan: &[u8], volumes: &[u8], prices: Option<&[u8]>| {
        let answer = memory.call(file, plan, volumes, prices);
        refused(answer.unwrap())
    };
    for prices in [None, Some(&b""[..]), Some(&prices)] {
        assert_eq!(answer(b"", b"", b"", prices), Some(3));
        assert_eq!(answer(b"", &[1, 1, 1], &volumes, prices), Some(3));
        assert_eq!(answer(&file, b"", b"", prices), Some(11));
        assert_eq!(answer(&file, b"", &volumes, prices), Some(11));
        assert_eq!(answer(&file, &[1, 1, 1], b"", prices), Some(16));
        let wanted = (prices == Some(b"")).then_some(28);
        assert_eq!(answer(&file, &[1, 1, 1], &volumes, prices), wanted);
    }
}

#[test]
fn plan_byte_is_refused_at_every_node_that_is_no_point() {
    let mut memory = Memory::new(WRAPPER);
    let job = all_kinds();
    let (file, points) = (job.file(), job.points());
    let (volumes, prices) = (volumes::file(&[1_000; 6]), prices::house());
    for node in 0..job.nodes.len() {
        for byte in 0..=255 {
            let mut plan = job.plan_of(&[]);
            plan[node] = byte;
            let wanted = match byte {
                0 => Answer::Cents(0),
                1 if points.contains(&node) => Answer::Cents(20 + 5 * job.nodes[node].value),
                _ => Answer::Refused(12),
            };
            for prices in [None, Some(&prices[..])] {
                let answer = memory.call(&file, &plan, &volumes, prices).unwrap();
                assert_eq!(answer, wanted, "byte {byte} at node {node}");
            }
        }
    }
}

#[test]
fn one_call_leaves_nothing_for_the_next() {
    let mut random = Random::of_this_run();
    let mut memory = Memory::new(WRAPPER);
    let mut counts = Counts::default();
    let mut calls = Vec::new();
    for _ in 0..200 {
        let job = small::job(&mut random);
        calls.extend(cases(&mut random, &job));
    }
    let mut answer = |case: &Case| case.answer(&mut memory).unwrap();
    let first: Vec<_> = calls.iter().map(&mut answer).collect();
    for _ in 0..4 {
        for _ in 0..calls.len() {
            let place = random.place(calls.len());
            assert_eq!(answer(&calls[place]), first[place]);
            counts.add(refused(first[place]));
        }
    }
    counts.print("in any order");
    counts.came(all_answers());
}
