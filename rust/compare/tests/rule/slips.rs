//! Wrong readings of what the call is to do, which a comparison must notice.
use crate::agreement::job;
use dapohiru_compare::compared::{find_by_name, notice_every_slip, Samples};
use dapohiru_compare::ruling::cases;
use dapohiru_generators::random::Random;
use dapohiru_second::slip::Slip;

#[test]
fn every_slip_of_the_second_implementation_is_noticed() {
    let mut random = Random::of_this_run();
    let jobs = Samples {
        least: 1_000,
        most: 20_000,
        part: 1,
    };
    notice_every_slip(&Slip::of_rule(), jobs, |number| {
        let job = job(&mut random, number);
        cases(&mut random, &job)
    });
}

#[test]
fn no_slip_is_named_twice() {
    find_by_name(&Slip::of_rule());
}
