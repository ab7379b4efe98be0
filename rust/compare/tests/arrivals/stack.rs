//! How much of the stack the calls take.
use dapohiru_compare::arrivals::cases;
use dapohiru_compare::compared::Compared;
use dapohiru_compare::library::CALLS;
use dapohiru_compare::stack::{said_by, Stack};
use dapohiru_generators::random::Random;

#[test]
fn calls_take_less_of_the_stack_than_the_header_says() {
    let mut random = Random::of_this_run();
    let mut stack = Stack::default();
    let mut most = 0;
    for _ in 0..20 {
        for case in cases(&mut random) {
            let mut lists = case.lists.clone();
            let (taken, number) = stack.taken_by(|| {
                let lists = lists.all_mut().map(|list| &mut list[..]);
                case.call(CALLS, lists)
            });
            assert_eq!(number, case.wanted(None).0);
            most = taken.max(most);
        }
    }
    println!("at most {most} bytes");
    let said = said_by("docs/SERVICE.md", "", &["`dapohiru_add_edge`"]);
    for call in ["add_edge", "drop_edge", "index_edges"] {
        let at = format!(" dapohiru_{call}(");
        assert_eq!(said, said_by("include/dapohiru.h", &at, &[]), "{call}");
    }
    assert!(most < said, "{most}, and {said} is said");
}
