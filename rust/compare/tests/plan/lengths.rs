//! Buffers of all lengths around the limits, and of none.
use dapohiru::numbers::ACCEPTED;
use dapohiru_compare::serving::Memory;
use dapohiru_compare::wrapper::WRAPPER;
use dapohiru_generators::random::Random;
use dapohiru_generators::samples::{in_loop, pair};
use dapohiru_generators::small;
use dapohiru_generators::zeros::filled;
use dapohiru_second::reading::{LONGEST, WORK};
use dapohiru_second::serving::{Given, Service};
use dapohiru_second::walk::Walks;

/// The length of a buffer at the limit, and lengths around it.
fn around(limit: usize) -> impl Iterator<Item = usize> {
    [0, 1, 2, limit / 2]
        .into_iter()
        .chain(limit - 20..=limit + 20)
}

#[test]
fn plan_and_listing_buffers_below_their_limit_are_2_also_where_less_would_do() {
    let mut memory = Memory::new(WRAPPER);
    let mut calls = 0;
    for job in [pair(), in_loop()] {
        let given = Given::of(&Walks::new(&job, None));
        for service in Service::BOTH {
            let lengths: Vec<_> = match service {
                Service::Plan => (0..=600).collect(),
                Service::List => around(service.least()).chain(0..100).collect(),
            };
            for lent_len in lengths {
                let seen = memory.call(service, &job.file(), WORK, lent_len).unwrap();
                let accepted = lent_len >= service.least();
                assert_eq!(seen.number == 2, !accepted, "{service:?} with {lent_len}");
                assert_eq!(seen.cleared, if accepted { WORK } else { 0 });
                let text = match service {
                    Service::Plan => &given.planned.plan,
                    Service::List => &given.listing,
                };
                assert_eq!(seen.written.len(), if accepted { text.len() } else { 0 });
                calls += 1;
            }
        }
    }
    println!("{calls} calls");
}

#[test]
fn work_buffer_below_65536_bytes_is_2() {
    let mut memory = Memory::new(WRAPPER);
    let file = pair().file();
    for service in Service::BOTH {
        for work_len in around(WORK) {
            for lent_len in [0, service.least() - 1, service.least()] {
                let seen = memory.call(service, &file, work_len, lent_len).unwrap();
                let accepted = work_len >= WORK && lent_len >= service.least();
                assert_eq!(seen.number == 2, !accepted, "{lent_len} and {work_len}");
                assert_eq!(seen.cleared, if accepted { WORK } else { 0 });
            }
        }
    }
}

#[test]
fn file_of_the_greatest_length_is_looked_at_and_one_byte_more_is_1() {
    let mut memory = Memory::new(WRAPPER);
    for service in Service::BOTH {
        for (len, wanted) in [(LONGEST, 9), (LONGEST + 1, 1), (200_000, 1)] {
            let mut file = in_loop().file();
            file.resize(len, b'\n');
            let seen = memory.call(service, &file, WORK, service.least()).unwrap();
            assert_eq!(seen.number, wanted, "{len} bytes");
            // short buffers are tested after 1, and before a byte of the file is looked at
            let seen = memory.call(service, &file, 0, 0).unwrap();
            assert_eq!(seen.number, if wanted == 1 { 1 } else { 2 });
        }
        for (lent_len, work_len, wanted) in [(0, 0, 2), (0, WORK, 2), (service.least(), WORK, 3)] {
            let seen = memory.call(service, b"", work_len, lent_len).unwrap();
            assert_eq!(seen.number, wanted, "an empty file");
        }
    }
}

#[test]
fn answer_does_not_depend_on_what_the_buffers_hold() {
    let mut random = Random::fixed(11);
    let mut any = vec![0; WORK];
    for _ in 0..100 {
        let job = small::job(&mut random);
        let file = filled(&mut random, job.file());
        for service in Service::BOTH {
            random.fill(&mut any);
            let fills = [vec![0; WORK], vec![1; WORK], vec![255; WORK], any.clone()];
            let answers = fills.map(|mut work| {
                let mut lent = work[..service.least()].to_vec();
                let number = WRAPPER.serve(service, &file, &mut work, &mut lent);
                assert!(work.iter().all(|&byte| byte == 0));
                let len = match service {
                    Service::Plan => job.nodes.len(),
                    Service::List => (number & 0xffff) as usize,
                };
                lent.truncate(len);
                (number, lent)
            });
            assert!(answers.iter().all(|answer| answer == &answers[0]));
        }
    }
}

#[test]
fn one_call_leaves_nothing_for_the_next() {
    let mut work = vec![7; WORK];
    let (pair, in_loop) = (pair(), in_loop());
    let files = [pair.file(), in_loop.file(), pair.file()[..50].to_vec()];
    for round in 0..6 {
        let file = &files[round % 3];
        let plan = WRAPPER.serve(Service::Plan, file, &mut work, &mut [3; 512]);
        let list = WRAPPER.serve(Service::List, file, &mut work, &mut [3; 32_768]);
        let wanted = match round % 3 {
            0 => (ACCEPTED + (3 << 32) + (2 << 16) + 2, ACCEPTED + 3 * 38 + 20),
            1 => (ACCEPTED + (2 << 32) + 3, ACCEPTED + 2 * 38 + 20),
            _ => (4, 4),
        };
        assert_eq!((plan, list), wanted);
    }
}
