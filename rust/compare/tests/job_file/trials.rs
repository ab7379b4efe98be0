//! Trials of document 01, and jobs that are accepted.
use crate::cases::Case;
use crate::memory::words;
use crate::samples::{answer, least, rich, second_job, PAIR};
use dapohiru::Refusal;
use dapohiru_generators::random::Random;
use dapohiru_generators::sized::{self, Sizes, FULL};
use dapohiru_generators::zeros::filled;
use dapohiru_second::job::Job;
use dapohiru_second::reading::{self, LONGEST};

#[test]
fn pair_is_accepted() {
    assert_eq!(answer(PAIR.as_bytes()), Ok(()));
    assert_eq!(second_job(PAIR.as_bytes()).file(), PAIR.as_bytes());
}

#[test]
fn empty_file_is_refused_as_3() {
    assert_eq!(answer(b""), Err(Refusal(3)));
}

#[test]
fn cut_line_is_refused_as_4() {
    for cut in [1, 13, 25, 27, PAIR.len() - 2, PAIR.len() - 1] {
        assert_eq!(answer(&PAIR.as_bytes()[..cut]), Err(Refusal(4)), "{cut}");
    }
}

/// PAIR with these columns for one of the J line's numbers: S, A, N or E.
fn with_size(place: usize, columns: &str) -> Vec<u8> {
    let mut file = PAIR.as_bytes().to_vec();
    let first = 1 + 6 * place;
    file.splice(first..first + 6, columns.bytes());
    file
}

#[test]
fn field_is_spaces_and_then_digits_and_zeros_may_be_the_first_of_them() {
    for (columns, number) in [
        ("     3", Some(3)),
        ("    03", Some(3)),
        ("  0003", Some(3)),
        ("000003", Some(3)),
        ("    12", Some(12)),
        ("  0012", Some(12)),
        ("000012", Some(12)),
        ("     0", Some(0)),
        ("    00", Some(0)),
        ("000000", Some(0)),
        ("000010", Some(10)),
        ("000008", Some(8)),
        ("000017", Some(17)),
        ("065539", Some(65_539)),
        ("099999", Some(99_999)),
        ("999999", Some(999_999)),
        ("0    3", None),
        ("0   12", None),
        ("0 0  1", None),
        ("00 012", None),
        ("00000 ", None),
        ("0     ", None),
        ("0    0", None),
        ("   0 0", None),
        ("   0 3", None),
        ("   5 3", None),
        ("3     ", None),
        ("00003 ", None),
        ("      ", None),
        ("0000+3", None),
        ("+00003", None),
        ("-00003", None),
        ("0000-3", None),
        ("0003.0", None),
        ("0x0003", None),
        ("0o0003", None),
        ("\t00003", None),
        ("0\t0003", None),
        ("0000:3", None),
        ("0000/3", None),
        ("\x0000003", None),
    ] {
        assert_eq!(reading::number(columns.as_bytes()), number, "{columns:?}");
        // PAIR has three states, three symbols, three nodes and two edges
        for (place, of_pair, limits) in [
            (0, 3, 1..=16),
            (1, 3, 1..=16),
            (2, 3, 1..=512),
            (3, 2, 0..=2048),
        ] {
            let answer = answer(&with_size(place, columns));
            match number {
                None => assert_eq!(answer, Err(Refusal(4)), "{columns:?}"),
                Some(number) if number == of_pair => assert_eq!(answer, Ok(()), "{columns:?}"),
                Some(number) if limits.contains(&number) => {
                    assert_ne!(answer, Ok(()), "{columns:?}");
                    assert_ne!(answer, Err(Refusal(5)), "{columns:?}");
                }
                Some(_) => assert_eq!(answer, Err(Refusal(5)), "{columns:?}"),
            }
        }
    }
}

#[test]
fn field_of_five_or_seven_digits_is_refused_as_4() {
    for columns in ["00003", "0000003", " 000003", "0000017", "3", "0000000003"] {
        for place in 0..4 {
            let answer = answer(&with_size(place, columns));
            assert_eq!(answer, Err(Refusal(4)), "{columns:?}");
        }
    }
}

#[test]
fn sixteen_states_are_accepted_and_17_refused_as_5() {
    for (states, wanted) in [(16, Ok(())), (17, Err(Refusal(5)))] {
        let mut job = least();
        job.finals = vec![1; states];
        job.next = vec![vec![states as u64 - 1]; states];
        assert_eq!(answer(&job.file()), wanted, "{states} states");
    }
}

#[test]
fn sixteen_symbols_are_accepted_and_17_refused_as_5() {
    for (symbols, wanted) in [(16, Ok(())), (17, Err(Refusal(5)))] {
        let mut job = least();
        job.symbols = symbols;
        job.next = vec![vec![0; symbols as usize]];
        assert_eq!(answer(&job.file()), wanted, "{symbols} symbols");
    }
}

#[test]
fn nodes_to_512_are_accepted_and_513_refused_as_5() {
    for (nodes, wanted) in [(512, Ok(())), (513, Err(Refusal(5)))] {
        let mut job = least();
        job.nodes = vec![job.nodes[0].clone(); nodes];
        assert_eq!(answer(&job.file()), wanted, "{nodes} nodes");
    }
}

#[test]
fn edges_to_2048_are_accepted_and_2049_refused_as_5() {
    // 46 nodes have 2,116 edges, and the file is below the greatest length
    for (edges, wanted) in [(2048, Ok(())), (2049, Err(Refusal(5)))] {
        let mut job = least();
        job.nodes = vec![job.nodes[0].clone(); 46];
        job.edges = (0..edges).map(|edge| (edge / 46, edge % 46)).collect();
        assert!(job.file().len() < LONGEST);
        assert_eq!(answer(&job.file()), wanted, "{edges} edges");
    }
}

#[test]
fn same_edge_twice_is_refused_as_8() {
    let mut job = second_job(PAIR.as_bytes());
    job.edges = vec![(0, 1), (0, 1)];
    assert_eq!(answer(&job.file()), Err(Refusal(8)));
}

#[test]
fn longest_file_is_accepted_and_one_byte_more_refused_as_1() {
    let mut random = Random::of_this_run();
    for _ in 0..20 {
        let file = sized::job(&mut random, FULL).file();
        let mut file = filled(&mut random, file);
        assert_eq!(file.len(), LONGEST);
        assert_eq!(answer(&file), Ok(()));
        file.push(b'\n');
        assert_eq!(answer(&file), Err(Refusal(1)));
    }
}

#[test]
fn full_size_with_a_number_past_its_limit_is_refused_as_1() {
    let mut random = Random::of_this_run();
    let full = sized::job(&mut random, FULL);
    let mut states = full.clone();
    states.finals.push(0);
    states.next.push(states.next[0].clone());
    let mut edges = full.clone();
    edges.edges.push((511, 511));
    for job in [states, edges] {
        assert_eq!(answer(&job.file()), Err(Refusal(1)));
    }
}

#[test]
fn jobs_at_every_limit_are_accepted() {
    let mut random = Random::of_this_run();
    let mut jobs = 0;
    for states in [1, 2, 15, 16] {
        for symbols in [1, 2, 15, 16] {
            for nodes in [1, 2, 46, 511, 512] {
                for edges in [0, 1, 3, 2047, 2048] {
                    let sizes = Sizes {
                        states,
                        symbols,
                        nodes,
                        edges: edges.min(nodes * nodes),
                    };
                    let job = sized::job(&mut random, sizes);
                    let file = filled(&mut random, job.file());
                    assert_eq!(answer(&file), Ok(()), "{sizes:?}");
                    assert_eq!(second_job(&file), job);
                    jobs += 1;
                }
            }
        }
    }
    println!("{jobs} jobs");
}

#[test]
fn kind_3_is_accepted_and_4_refused_as_7() {
    for (kind, wanted) in [
        (2, Ok(())),
        (3, Ok(())),
        (4, Err(Refusal(7))),
        (5, Err(Refusal(7))),
        (255, Err(Refusal(7))),
        (259, Err(Refusal(7))),
        (65_539, Err(Refusal(7))),
    ] {
        for value in [0, 1] {
            let mut job = least();
            (job.nodes[0].kind, job.nodes[0].value) = (kind, value);
            assert_eq!(answer(&job.file()), wanted, "kind {kind}, value {value}");
            let read = reading::job(&job.file()).map(drop).map_err(Refusal);
            assert_eq!(read, wanted, "kind {kind}, value {value}");
        }
    }
}

#[test]
fn set_of_a_call_that_may_come_back_in_names_symbols_below_a() {
    for symbols in [1, 2, 15, 16] {
        for (value, wanted) in [
            (0, Ok(())),
            ((1 << symbols) - 1, Ok(())),
            (1 << symbols, Err(Refusal(7))),
            ((1 << symbols) + 1, Err(Refusal(7))),
            (999_999, Err(Refusal(7))),
        ] {
            let mut job = least();
            job.symbols = symbols;
            job.next = vec![vec![0; symbols as usize]];
            (job.nodes[0].kind, job.nodes[0].value) = (3, value);
            assert_eq!(answer(&job.file()), wanted, "{value} of {symbols} symbols");
        }
    }
}

#[test]
fn what_document_01_allows_is_accepted() {
    let with = |change: fn(&mut Job)| {
        let mut job = rich();
        change(&mut job);
        job
    };
    let jobs: [(&str, Job); 12] = [
        ("the least job", least()),
        ("call set 0", with(|job| job.nodes[5].value = 0)),
        (
            "set 0 at a call that may come back in",
            with(|job| job.nodes[6].value = 0),
        ),
        (
            "all nodes of kind 3",
            with(|job| {
                job.nodes.iter_mut().for_each(|node| {
                    (node.kind, node.value) = (3, 4095);
                })
            }),
        ),
        ("exit with after set 0", with(|job| job.nodes[2].after = 0)),
        (
            "entry at every kind",
            with(|job| job.nodes.iter_mut().for_each(|node| node.entry = 7)),
        ),
        (
            "exit at every kind",
            with(|job| job.nodes.iter_mut().for_each(|node| node.exit = 1)),
        ),
        ("no edge", with(|job| job.edges.clear())),
        (
            "an edge to itself alone",
            with(|job| job.edges = vec![(11, 11)]),
        ),
        ("no final state", with(|job| job.finals = vec![0; 3])),
        ("all states final", with(|job| job.finals = vec![1; 3])),
        (
            "no event node",
            with(|job| {
                job.nodes.iter_mut().for_each(|node| {
                    (node.kind, node.value) = (0, 0);
                })
            }),
        ),
    ];
    for (what, job) in jobs {
        assert_eq!(answer(&job.file()), Ok(()), "{what}");
        assert_eq!(second_job(&job.file()), job, "{what}");
    }
}

#[test]
fn random_jobs_are_accepted_and_read_back_by_the_second_reader() {
    const JOBS: u64 = 20_000;
    let mut random = Random::of_this_run();
    let mut longest = 0;
    for _ in 0..JOBS {
        let sizes = Sizes::random(&mut random);
        let job = sized::job(&mut random, sizes);
        let file = filled(&mut random, job.file());
        assert_eq!(answer(&file), Ok(()), "{}", words(&Case::of(file)));
        assert_eq!(second_job(&file), job);
        longest = longest.max(file.len());
    }
    println!("{JOBS} jobs, the longest file has {longest} bytes");
}
