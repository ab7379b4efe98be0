//! What a call leaves in the work buffer, the file and the bytes around them.
use crate::cases::Cases;
use crate::memory::{read, words, Memory};
use crate::samples::little;
use dapohiru::Refusal;
use dapohiru_compare::memory::Counts;
use dapohiru_generators::faults::{faulty, Fault};
use dapohiru_generators::random::Random;
use dapohiru_generators::sized::{self, FULL};
use dapohiru_generators::zeros::filled;
use dapohiru_second::job::spell;
use dapohiru_second::reading::WORK;

#[test]
fn work_buffer_is_unchanged_after_1_and_2_and_else_zero_in_its_first_65536_bytes_alone() {
    let mut random = Random::of_this_run();
    let full = sized::job(&mut random, FULL);
    let long = [full.file(), vec![b'\n']].concat();
    let lines = little().lines();
    let mut files = vec![spell(&lines), full.file(), long];
    files.extend(
        Fault::all(&little())
            .iter()
            .map(|&fault| filled(&mut random, faulty(&lines, &[fault]))),
    );
    let mut counts = Counts::default();
    for file in &files {
        for work_len in [0, 65_535, 65_536, 65_537, 70_000] {
            for fill in 0..4 {
                let before: Vec<u8> = (0..work_len)
                    .map(|_| match fill {
                        0 => 0,
                        1 => 255,
                        2 => random.below(2) as u8,
                        _ => random.number() as u8,
                    })
                    .collect();
                let mut after = before.clone();
                let refused = read(file, &mut after).err().map(|Refusal(number)| number);
                let mut wanted = before;
                if !matches!(refused, Some(1 | 2)) {
                    wanted[..WORK].fill(0);
                }
                assert!(after == wanted, "after {refused:?} of {work_len} bytes");
                counts.add(refused);
            }
        }
    }
    counts.print("work buffers");
    for refused in (1..=10).map(Some).chain([None]) {
        assert!(counts.of(refused) > 0, "no {refused:?}");
    }
}

#[test]
fn answer_does_not_depend_on_what_the_work_buffer_holds() {
    let mut random = Random::of_this_run();
    let mut cases = Cases::new(Random(random.number()));
    for _ in 0..3_000 {
        let file = cases.any().file;
        let any = random.number() as u8;
        let answers = [0, 1, b'\n', 255, any].map(|byte| read(&file, &mut vec![byte; WORK]));
        assert!(answers.iter().all(|answer| answer == &answers[0]));
    }
}

#[test]
fn file_and_the_bytes_around_both_buffers_are_never_written() {
    let mut cases = Cases::new(Random::of_this_run());
    let mut memory = Memory::new();
    for number in 0..20_000 {
        let case = cases.any();
        if let Err(why) = memory.call(&case) {
            panic!("file {number}: {why}; {}", words(&case));
        }
    }
}
