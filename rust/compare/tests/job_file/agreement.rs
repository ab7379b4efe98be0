//! Random files: the library beside the second reader, without a slip and with each.
use crate::cases::Cases;
use crate::memory::{Memory, Seen};
use dapohiru_compare::memory::Counts;
use dapohiru_generators::damage::Damaged;
use dapohiru_generators::random::Random;
use dapohiru_plain::read::Decoded;
use dapohiru_second::reading::{self, Reader, Slip, WORK};

#[test]
fn random_files_agree_with_the_second_reader() {
    const FILES: u64 = 300_000;
    let mut cases = Cases::new(Random::of_this_run());
    let mut memory = Memory::new();
    let mut counts = Counts::default();
    for number in 0..FILES {
        let compared = memory.compare(&cases.any());
        counts.agree(format_args!("file {number}"), compared, |&refused| refused);
    }
    counts.print("random damage");
    for (refused, in_thousand) in [
        (None, 100),
        (Some(1), 3),
        (Some(2), 20),
        (Some(3), 5),
        (Some(4), 100),
        (Some(5), 20),
        (Some(6), 20),
        (Some(7), 20),
        (Some(8), 20),
        (Some(9), 10),
        (Some(10), 10),
    ] {
        assert!(
            counts.of(refused) * 1_000 >= FILES * in_thousand,
            "{refused:?} is too rare: {}",
            counts.of(refused)
        );
    }
}

#[test]
fn every_slip_of_the_second_reader_is_noticed() {
    const LIMIT: u64 = 300_000;
    let mut cases = Cases::new(Random::of_this_run());
    let mut memory = Memory::new();
    let mut left = Slip::ALL.to_vec();
    for number in 1..=LIMIT {
        if left.is_empty() {
            break;
        }
        let case = cases.any();
        if let Err(why) = memory.compare(&case) {
            panic!("file {number}: {why}");
        }
        let seen = memory.call(&case).unwrap();
        left.retain(|&slip| {
            let outcome = Reader { slip: Some(slip) }.read(&case.file, case.work_len);
            let noticed = Seen::of(&outcome) != seen;
            if noticed {
                let by = (seen.refused, Seen::of(&outcome).refused);
                println!("{slip:?}: noticed at file {number}, {by:?}");
            }
            !noticed
        });
    }
    println!("{} slips, {} not noticed", Slip::ALL.len(), left.len());
    assert!(left.is_empty(), "not noticed in {LIMIT} files: {left:?}");
}

#[test]
fn damaged_files_of_the_generators_show_every_slip_on_zeros() {
    const FILES: u64 = 12_000;
    let mut random = Random::of_this_run();
    let slips = [
        Slip::LeadingZeroRefused,
        Slip::LeadingZeroOctal,
        Slip::SpaceAfterZeroAccepted,
        Slip::SpaceBetweenZerosAccepted,
        Slip::SevenDigitsAccepted,
    ];
    let mut noticed = [0; 5];
    for _ in 0..FILES {
        let Damaged { file, unread, .. } = Damaged::random(&mut random);
        for (slip, noticed) in slips.into_iter().zip(&mut noticed) {
            let outcome = Reader { slip: Some(slip) }.read(&file, WORK);
            *noticed += u64::from(Seen::of(&outcome).refused != unread);
        }
    }
    println!("of {FILES} files show the slips {slips:?}: {noticed:?}");
    for ((slip, count), least) in slips.iter().zip(noticed).zip([3_000, 1_000, 200, 80, 15]) {
        assert!(count >= least, "{slip:?}: {count} files");
    }
}

#[test]
fn plain_reader_of_the_benchmarks_refuses_as_the_second_reader_does() {
    const FILES: u64 = 30_000;
    let mut cases = Cases::new(Random::of_this_run());
    let mut decoded = Decoded::new();
    let mut counts = Counts::default();
    for number in 0..FILES {
        let file = cases.any().file;
        let refused = reading::job(&file).err();
        let text = file.escape_ascii();
        assert_eq!(
            decoded.decode(&file).err(),
            refused,
            "file {number}: {text}"
        );
        counts.add(refused);
    }
    counts.print("plain reader");
    counts.came((3..=10).map(Some).chain([None]));
}
