//! Wrong readings of what the call is to do, which a comparison must notice.
use dapohiru_compare::compared::{find_by_name, notice_every_slip, Samples};
use dapohiru_compare::expression::cases;
use dapohiru_generators::random::Random;
use dapohiru_second::slip::Slip;

#[test]
fn every_slip_of_the_second_implementation_is_noticed() {
    let mut random = Random::of_this_run();
    let samples = Samples {
        least: 300,
        most: 10_000,
        part: 16,
    };
    notice_every_slip(&Slip::of_expression(), samples, |_| cases(&mut random));
}

#[test]
fn no_slip_is_named_twice() {
    find_by_name(&Slip::of_expression());
}
