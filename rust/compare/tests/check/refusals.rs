//! Every refusal, alone and beside another fault.
use dapohiru_compare::checking::{Case, Memory, Said};
use dapohiru_compare::memory::Counts;
use dapohiru_compare::on_file::OnFile;
use dapohiru_compare::on_job::OnJob;
use dapohiru_compare::wrapper::WRAPPER;
use dapohiru_generators::faults::NUMBERS;
use dapohiru_generators::random::Random;
use dapohiru_generators::samples::{in_loop, pair, turn, PLAIN_NODE};
use dapohiru_second::job::Job;
use dapohiru_second::reading::{LONGEST, WORK};
use dapohiru_second::walk::Walks;

/// PAIR with a plain node after it.
fn with_plain_node() -> Job {
    let mut job = pair();
    job.nodes.push(PLAIN_NODE);
    job.edges.push((2, 3));
    job
}

/// Gives a call the fault that this refusal names.
fn with_fault(case: Case, random: &mut Random, number: u64) -> Case {
    match number {
        11 => case.with_plan_length_fault(random),
        12 => case.with_plan_byte_fault(random),
        _ => case.with_job_fault(random, number),
    }
}

#[test]
fn lower_of_two_faults_decides() {
    let mut random = Random::of_this_run();
    let mut memory = Memory::new(WRAPPER);
    let mut counts = Counts::default();
    let job = with_plain_node();
    let walks = Walks::new(&job, None);
    let from_file = |number: u64| NUMBERS.contains(&number);
    for one in 1..=12 {
        // a file fault goes in first, since it makes another file; 1 makes that file too long
        for other in
            (one..=12).filter(|&other| !(from_file(one) && from_file(other) && one != other))
        {
            for _ in 0..40 {
                let case = Case::of(&job, vec![1, 1, 1, 0]).with_zeros(&mut random);
                let mut case = case.with_any_work(&mut random);
                let mut faults = vec![one, other];
                faults.sort_by_key(|&number| (!from_file(number), number == 12));
                faults.dedup();
                for number in faults {
                    case = with_fault(case, &mut random, number);
                }
                let wanted = Said::Refused(one);
                let name = format!("{one} and {other}");
                let compared = case.compare(&mut memory, &walks);
                let seen = counts.agree(&name, compared, |seen| seen.said);
                assert_eq!(seen.said, wanted, "{name}: {}", case.words());
            }
        }
    }
    counts.print("one fault or two");
}

#[test]
fn file_of_the_greatest_length_is_looked_at_and_one_byte_more_is_1() {
    let mut memory = Memory::new(WRAPPER);
    let plan = [0, 0];
    for (len, wanted) in [(LONGEST, 9), (LONGEST + 1, 1), (200_000, 1)] {
        let mut file = in_loop().file();
        file.resize(len, b'\n');
        let seen = memory.call(&file, &plan, WORK).unwrap();
        assert_eq!(seen.said, Said::Refused(wanted), "{len} bytes");
    }
    for work_len in [0, WORK - 1, WORK] {
        let seen = memory.call(&vec![0; LONGEST + 1], &plan, work_len).unwrap();
        assert_eq!(seen.said, Said::Refused(1));
        let seen = memory.call(b"", &[], work_len).unwrap();
        let wanted = if work_len < WORK { 2 } else { 3 };
        assert_eq!(seen.said, Said::Refused(wanted));
    }
}

#[test]
fn plan_of_another_length_is_11() {
    let mut memory = Memory::new(WRAPPER);
    for job in [pair(), in_loop(), turn()] {
        let nodes = job.nodes.len();
        for len in (0..600).filter(|&len| len != nodes) {
            for byte in [0, 1, 2, 255] {
                let seen = memory.call(&job.file(), &vec![byte; len], WORK).unwrap();
                assert_eq!(seen.said, Said::Refused(11), "{len} bytes");
            }
        }
        let seen = memory.call(&job.file(), &vec![1; nodes], WORK).unwrap();
        assert_eq!(seen.said, Said::Faithful);
    }
}

#[test]
fn plan_byte_above_1_or_1_at_no_event_is_12_at_every_node() {
    let mut random = Random::of_this_run();
    let mut memory = Memory::new(WRAPPER);
    let mut refused = 0;
    for _ in 0..60 {
        let job = dapohiru_generators::small::job(&mut random);
        let walks = Walks::new(&job, None);
        for node in 0..job.nodes.len() {
            for byte in 0..=255 {
                let mut case = Case::of(&job, job.all_watched()).with_zeros(&mut random);
                case.plan[node] = byte;
                match case.compare(&mut memory, &walks) {
                    Ok(seen) => {
                        let is_event = job.points().contains(&node);
                        let fault = byte > u8::from(is_event);
                        assert_eq!(seen.said == Said::Refused(12), fault, "{}", case.words());
                        refused += u64::from(fault);
                    }
                    Err(why) => panic!("{why}"),
                }
            }
        }
    }
    println!("{refused} plans refused as 12");
}

#[test]
fn last_node_of_512_is_tested_as_the_first() {
    let mut memory = Memory::new(WRAPPER);
    let mut job = pair();
    job.nodes.resize(512, PLAIN_NODE);
    for (node, byte, wanted) in [
        (511, 0, Said::Faithful),
        (511, 1, Said::Refused(12)),
        (511, 2, Said::Refused(12)),
        (3, 1, Said::Refused(12)),
        (2, 2, Said::Refused(12)),
        (0, 255, Said::Refused(12)),
    ] {
        let mut plan = job.all_watched();
        plan[node] = byte;
        let seen = memory.call(&job.file(), &plan, WORK).unwrap();
        assert_eq!(seen.said, wanted, "byte {byte} at node {node}");
    }
}
