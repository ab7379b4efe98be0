//! Texts with zeros before their numbers and the same texts without get the same number and leave the same rule.
use crate::agreement::{Calls, ALL};
use dapohiru_compare::compared::Compared;
use dapohiru_compare::damage::leads_replaced;
use dapohiru_compare::rows::{cases, Case};
use dapohiru_generators::random::Random;
use dapohiru_generators::rows::of_rule;
use dapohiru_generators::samples::pair;
use dapohiru_generators::zeros::{alike, zero_filled};
use dapohiru_second::rows::text;

#[test]
fn texts_that_are_alike_get_the_same_number_and_leave_the_same_bytes() {
    const SAMPLES: usize = 1_000;
    let mut random = Random::of_this_run();
    let mut calls = Calls::new();
    let mut zeros = 0;
    for number in 0..SAMPLES {
        for case in cases(&mut random) {
            let wanted = calls.agree(format_args!("sample {number}"), &case);
            for text in alike(&mut random, &case.text) {
                zeros += usize::from(text != case.text);
                let other = Case {
                    text,
                    ..case.clone()
                };
                let seen = calls.agree(format_args!("sample {number}"), &other);
                assert_eq!(seen, wanted, "{}\nand {}", case.words(), other.words());
            }
        }
    }
    calls.counts.print(&format!("{SAMPLES} samples"));
    calls.counts.came(ALL);
    println!("{zeros} texts spelled in another way");
    assert!(zeros > 10 * SAMPLES);
}

#[test]
fn texts_that_are_alike_and_cut_at_the_same_byte_get_the_same_number() {
    let mut random = Random::of_this_run();
    let mut calls = Calls::new();
    let (given, rows) = of_rule(&pair());
    for whole in alike(&mut random, &text(&rows)) {
        for cut in 0..=whole.len() {
            let case = Case::of_text(given, whole[..cut].to_vec());
            let seen = calls.agree(format_args!("cut at {cut}"), &case);
            let wanted = match cut {
                _ if cut == whole.len() => dapohiru::numbers::ACCEPTED,
                _ if cut % 32 == 0 => 19,
                _ => 17,
            };
            assert_eq!(seen.number, wanted, "cut at {cut}");
        }
    }
}

#[test]
fn zero_before_a_space_is_17_in_every_field() {
    let mut calls = Calls::new();
    let (given, rows) = of_rule(&pair());
    let whole = text(&rows);
    let wanted = calls.agree("the rows of PAIR", &Case::of_text(given, whole.clone()));
    let mut seen = [0, 0];
    for (other, is_alike) in leads_replaced(&whole) {
        let left = calls.agree("other leads", &Case::of_text(given, other));
        match is_alike {
            true => assert_eq!(left, wanted),
            false => assert_eq!((left.number, left.written), (17, vec![])),
        }
        seen[usize::from(!is_alike)] += 1;
    }
    println!("{} texts are read alike, {} are refused", seen[0], seen[1]);
    // five fields a row; six of the 32 choices are spaces and then zeros
    let fields = 5 * rows.len();
    assert_eq!(seen, [6 * fields, 26 * fields]);
}

#[test]
fn zeros_stand_for_all_spaces_of_a_text() {
    let (_, rows) = of_rule(&pair());
    let spaced = text(&rows);
    let zeros = zero_filled(spaced.clone());
    assert!(spaced.contains(&b' ') && !zeros.contains(&b' '));
    let replaced: Vec<_> = spaced
        .iter()
        .map(|&byte| if byte == b' ' { b'0' } else { byte })
        .collect();
    assert_eq!(zeros, replaced);
}
