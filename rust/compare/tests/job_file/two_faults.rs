//! Files with two faults: which of them decides.
use crate::cases::Case;
use crate::memory::{words, Memory};
use crate::samples::{answer, little};
use dapohiru::Refusal;
use dapohiru_compare::memory::Counts;
use dapohiru_generators::faults::{faulty, Fault};
use dapohiru_generators::random::Random;
use dapohiru_generators::sized::{self, FULL};
use dapohiru_generators::zeros::filled;
use dapohiru_second::job::{spell, Line};
use dapohiru_second::reading::LONGEST;
use std::collections::BTreeMap;

#[test]
fn first_of_two_faults_decides_line_by_line_and_then_by_number() {
    let mut random = Random::of_this_run();
    let lines = little().lines();
    let faults = Fault::all(&little());
    let mut memory = Memory::new();
    let mut wins: BTreeMap<(u64, u64), [u64; 2]> = BTreeMap::new();
    assert_eq!(answer(&spell(&lines)), Ok(()));
    for &one in &faults {
        let (line, number) = one.place(&lines);
        let case = Case::of(filled(&mut random, faulty(&lines, &[one])));
        assert_eq!(memory.compare(&case), Ok(Some(number)), "{one:?}");
        for &other in &faults {
            let (other_line, other_number) = other.place(&lines);
            if number >= other_number || !one.goes_with(other, &lines) {
                continue;
            }
            let first = (line, number) < (other_line, other_number);
            let wanted = if first { number } else { other_number };
            let case = Case::of(filled(&mut random, faulty(&lines, &[one, other])));
            let compared = memory.compare(&case);
            assert_eq!(compared, Ok(Some(wanted)), "{one:?} and {other:?}");
            wins.entry((number, other_number)).or_default()[usize::from(!first)] += 1;
        }
    }
    // 4 wins over a later number and loses to an earlier one; else the lines or the numbers decide
    for one in 3..=10 {
        for other in one + 1..=10 {
            let [first, second] = wins.get(&(one, other)).copied().unwrap_or_default();
            println!("{one} and {other}: {one} wins {first}, {other} wins {second}");
            let possible = match (one, other) {
                // a file that ends early has no bytes after its last line
                (3, 9) => [false, false],
                (3, 4..=8) => [false, true],
                (4, 5..=8) => [true, true],
                _ => [true, false],
            };
            assert_eq!([first > 0, second > 0], possible, "{one} and {other}");
        }
    }
}

#[test]
fn too_long_a_file_is_refused_as_1_whatever_else_it_has() {
    let mut random = Random::of_this_run();
    let job = sized::job(&mut random, FULL);
    let lines = job.lines();
    let mut memory = Memory::new();
    let mut counts = Counts::default();
    let mut faults = Fault::all(&job);
    faults.retain(|fault| {
        let (line, _) = fault.place(&lines);
        [0, 1, 16, 17, 300, 528, 529, 2000, 2576, 2577].contains(&line)
    });
    for fault in faults {
        let (_, number) = fault.place(&lines);
        let mut file = filled(&mut random, faulty(&lines, &[fault]));
        if file.len() <= LONGEST {
            let compared = memory.compare(&Case::of(file.clone()));
            assert_eq!(compared, Ok(Some(number)), "{fault:?}");
        }
        if number != 3 {
            file.resize(file.len().max(LONGEST) + 1, b'\n');
            assert_eq!(memory.compare(&Case::of(file)), Ok(Some(1)), "{fault:?}");
            counts.add(Some(number));
        }
    }
    // a file that is too long and ends where a line is due has more edges than a job may have
    let mut lines = lines;
    lines[0].numbers[3] = 2100;
    lines.extend((0..20).map(|_| Line::new(b'F', &[511, 511])));
    assert_eq!(answer(&spell(&lines)), Err(Refusal(1)));
    counts.add(Some(3));
    counts.print("too long with a fault that alone is");
    for number in 3..=10 {
        assert!(counts.of(Some(number)) > 0, "no {number}");
    }
}

#[test]
fn too_short_a_work_buffer_is_refused_as_2_before_the_file_is_looked_at() {
    let mut random = Random::of_this_run();
    let lines = little().lines();
    let mut memory = Memory::new();
    let mut files = vec![spell(&lines)];
    files.extend(
        Fault::all(&little())
            .iter()
            .map(|&fault| filled(&mut random, faulty(&lines, &[fault]))),
    );
    files.push(vec![b' '; LONGEST]);
    for file in files {
        for work_len in [0, 1, 4096, 65_535] {
            let mut case = Case::of(file.clone());
            case.work_len = work_len;
            assert_eq!(memory.compare(&case), Ok(Some(2)), "{}", words(&case));
        }
    }
    for file in [vec![b' '; LONGEST + 1], vec![0; 100_000]] {
        for work_len in [0, 65_535, 65_536, 70_000] {
            let mut case = Case::of(file.clone());
            case.work_len = work_len;
            assert_eq!(memory.compare(&case), Ok(Some(1)), "{}", words(&case));
        }
    }
}
