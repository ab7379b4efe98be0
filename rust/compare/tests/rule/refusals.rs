//! Every refusal, alone and beside other faults.
use crate::agreement::Calls;
use dapohiru_compare::compared::Compared;
use dapohiru_compare::on_file::OnFile;
use dapohiru_compare::on_job::OnJob;
use dapohiru_compare::ruling::{Case, Said};
use dapohiru_generators::faults::NUMBERS;
use dapohiru_generators::random::Random;
use dapohiru_generators::samples::pair;
use dapohiru_generators::small;
use dapohiru_second::reading::WORK;

/// The refusals of the call, in the order in which they are tested.
const ORDER: [u64; 11] = [1, 2, 3, 4, 5, 6, 7, 8, 9, 10, 13];

#[test]
fn lower_of_two_or_three_faults_decides() {
    let mut random = Random::of_this_run();
    let mut calls = Calls::new();
    let job = pair();
    let from_file = |number: &u64| NUMBERS.contains(number);
    let mut asked = 0;
    for one in ORDER {
        for other in ORDER.into_iter().filter(|&other| other >= one) {
            for third in ORDER.into_iter().filter(|&third| third >= other) {
                let mut faults = vec![one, other, third];
                faults.dedup();
                // a file has one of its own faults, and 1 makes that file too long
                if faults
                    .iter()
                    .copied()
                    .filter(|number| from_file(number))
                    .count()
                    > 1
                {
                    continue;
                }
                faults.sort_by_key(|number| !from_file(number));
                for _ in 0..20 {
                    let case = Case::of(&job).with_zeros(&mut random);
                    let mut case = case.with_any_work(&mut random);
                    for &number in &faults {
                        case = case.with_fault(&mut random, number);
                    }
                    let seen = calls.agree(format_args!("{faults:?}"), &case);
                    assert_eq!(seen.number, one, "{faults:?}: {}", case.words());
                    assert_eq!(seen.written, vec![], "{faults:?}");
                    assert_eq!(seen.cleared, if one <= 2 { 0 } else { WORK }, "{faults:?}");
                }
                asked += 1;
            }
        }
    }
    calls.counts.print(&format!("{asked} choices of faults"));
    calls.counts.came(ORDER.map(Said::Refused));
}

#[test]
fn every_refusal_leaves_the_rule_buffer() {
    let mut random = Random::of_this_run();
    let mut calls = Calls::new();
    for number in 0..400 {
        let job = small::job(&mut random);
        for fault in ORDER {
            if fault == 8 && job.edges.is_empty() {
                continue;
            }
            let case = Case::of(&job).with_zeros(&mut random);
            let case = case.with_any_work(&mut random);
            let case = case.with_fault(&mut random, fault);
            let seen = calls.agree(format_args!("job {number}"), &case);
            assert_eq!(seen.number, fault, "job {number}");
            assert_eq!(seen.written, vec![], "job {number}");
        }
    }
    calls.counts.print("400 jobs");
    calls.counts.came(ORDER.map(Said::Refused));
}

#[test]
fn rule_read_before_a_fault_of_a_later_line_is_not_written() {
    // the R lines are sound, and a P line, an F line or what follows is not
    let mut random = Random::of_this_run();
    let mut calls = Calls::new();
    for number in [7, 8, 9, 10] {
        for _ in 0..50 {
            let case = Case::of(&pair()).with_fault(&mut random, number);
            let seen = calls.agree(format_args!("{number}"), &case);
            assert_eq!((seen.number, seen.written), (number, vec![]));
        }
    }
}
