//! How much of the stack the call takes, which reads a text by calls within calls.
use dapohiru::numbers::{expression, ACCEPTED};
use dapohiru_compare::expression::cases;
use dapohiru_compare::stack::{said_by, Stack};
use dapohiru_generators::random::Random;

/// How much more than the call takes the header may say.
const ROOM: usize = 8_192;

#[test]
fn call_takes_less_of_the_stack_than_the_header_says() {
    let mut stack = Stack::default();
    let mut rule = [0; 256];
    let mut taken =
        |text: &[u8], symbols: u64| stack.taken_by(|| expression(text, symbols, &mut rule));
    let groups = [&[b'('; 31][..], b"a", &[b')'; 31]].concat();
    let letters = b"(a*b*c*d*e*f*g*h*i*j*k*l*m*n*)*(a*b*c*d*e*f*g*h*i*j*k*l*m*n*)*a*";
    let (deepest, refused) = taken(&[b'('; 64], 16);
    let (in_groups, made) = taken(&groups, 16);
    let (of_16_states, most_states) = taken(letters, 16);
    assert_eq!((refused, made >> 16), (20, (1 << 32) + 3));
    assert_eq!(most_states >> 16, (1 << 32) + 16);
    println!("{deepest} bytes for 64 parentheses that open, {in_groups} for 31 groups, {of_16_states} for 16 states");
    // refused and with a rule, on random texts
    let mut random = Random::of_this_run();
    let mut most = [deepest, in_groups.max(of_16_states)];
    for _ in 0..40 {
        for case in cases(&mut random) {
            let (taken, number) = taken(&case.text, case.symbols);
            let most = &mut most[usize::from(number >= ACCEPTED)];
            *most = taken.max(*most);
        }
    }
    println!(
        "at most {} bytes where it is refused, {} where there is a rule",
        most[0], most[1]
    );
    let said = said_by("docs/SERVICE.md", "", &["`dapohiru_expression`"]);
    for (path, at) in [
        ("include/dapohiru.h", " dapohiru_expression("),
        ("rust/src/expression.rs", "pub fn expression("),
    ] {
        assert_eq!(said, said_by(path, at, &[]), "{path}");
    }
    let right = said - ROOM..said;
    let most = most[0].max(most[1]);
    assert!(right.contains(&most), "{most}, and {said} is said");
}
