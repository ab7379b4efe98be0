//! Every refusal, alone and beside another fault.
use crate::agreement::Calls;
use dapohiru_compare::on_file::OnFile;
use dapohiru_compare::on_job::OnJob;
use dapohiru_compare::serving::{Case, Said};
use dapohiru_generators::faults::NUMBERS;
use dapohiru_generators::random::Random;
use dapohiru_generators::samples::pair;
use dapohiru_generators::small;
use dapohiru_second::serving::{Given, Service};
use dapohiru_second::walk::Walks;

#[test]
fn lower_of_two_faults_decides() {
    let mut random = Random::fixed(9);
    let mut calls = Calls::new();
    let job = pair();
    let given = Given::of(&Walks::new(&job, None));
    for service in Service::BOTH {
        for one in 1..=10 {
            for other in (1..=2).filter(|&other| other <= one) {
                for _ in 0..30 {
                    let case = Case::of(service, &job).with_zeros(&mut random);
                    let mut case = case.with_any_work(&mut random);
                    for number in if one == other {
                        vec![one]
                    } else {
                        vec![one, other]
                    } {
                        case = case.with_fault(&mut random, &job, number);
                    }
                    let seen = calls.agree(format_args!("{one} and {other}"), &given, &case);
                    assert_eq!(seen.number, other);
                }
            }
        }
    }
    calls.counts.print("two faults");
}

#[test]
fn every_refusal_leaves_plan_and_listing_buffer() {
    let mut random = Random::fixed(10);
    let mut calls = Calls::new();
    for number in 0..400 {
        let job = small::job(&mut random);
        let given = Given::of(&Walks::new(&job, None));
        for service in Service::BOTH {
            for fault in [1, 2].into_iter().chain(NUMBERS) {
                if fault == 8 && job.edges.is_empty() {
                    continue;
                }
                let case = Case::of(service, &job).with_zeros(&mut random);
                let case = case.with_any_work(&mut random);
                let case = case.with_fault(&mut random, &job, fault);
                let seen = calls.agree(format_args!("job {number}"), &given, &case);
                assert_eq!(seen.number, fault, "job {number}");
                assert_eq!(seen.written, vec![], "job {number}");
            }
        }
    }
    calls.counts.print("400 jobs");
    calls.counts.came((1..=10).map(Said::Refused));
}
