//! Texts with damage.
use crate::agreement::Calls;
use dapohiru_compare::compared::Compared;
use dapohiru_compare::damage;
use dapohiru_compare::expression::{refused, Case, Memory};
use dapohiru_compare::library::CALLS;
use dapohiru_compare::memory::Counts;
use dapohiru_generators::expressions::{self, SEALED};
use dapohiru_generators::random::Random;

/// The refusals and the rule that damage leads to.
const SEEN: [Option<u64>; 3] = [None, Some(20), Some(21)];

#[test]
fn damaged_texts_are_refused_or_make_the_rule_that_they_spell() {
    const TEXTS: usize = 8_000;
    let mut random = Random::of_this_run();
    let mut calls = Calls::new();
    for number in 0..TEXTS {
        let symbols = expressions::symbols(&mut random);
        let sound = match random.once_in(4) {
            true => expressions::many_states(&mut random, symbols),
            false => expressions::sound(&mut random, symbols),
        };
        let text = match random.once_in(4) {
            true => expressions::misread(&mut random, &sound),
            false => expressions::damaged(&mut random, symbols, &sound),
        };
        calls.agree(format_args!("text {number}"), &Case::of(&text, symbols));
    }
    calls.counts.print(&format!("{TEXTS} texts"));
    calls.counts.came(SEEN);
}

#[test]
fn every_byte_replaced_by_every_other_agrees() {
    let every: Vec<u8> = (0..=255).collect();
    let mut memory = Memory::new(CALLS);
    let mut counts = Counts::default();
    // 64 characters, and 14 letters, of which one more is too many
    let long = [
        &b"((a|b)*(p|"[..],
        &[b'('; 10],
        b"b*",
        &[b')'; 10],
        b"))*",
        &[b'*'; 27],
    ]
    .concat();
    assert_eq!(long.len(), 62);
    let long = [&long[..], b"|a"].concat();
    for (whole, symbols) in [(SEALED, 3), (&long, 16), (&[b'a'; 14], 2), (b"a", 1)] {
        for text in damage::bytes_replaced(whole, &every) {
            let compared = Case::of(&text, symbols).compare(&mut memory, None);
            counts.agree("a byte", compared, |seen| refused(seen.number));
        }
    }
    counts.print("every byte by every other");
    counts.came([None, Some(20)]);
}

#[test]
fn every_damage_of_a_text_agrees() {
    let mut calls = Calls::new();
    let text = b"(a|bc*)*(b|c)a";
    let texts = [
        damage::bytes_replaced(text, b"abc*|()d \n"),
        damage::bytes_moved(text, b"abc*|()d \n"),
        (0..text.len()).map(|cut| text[..cut].to_vec()).collect(),
        (0..text.len()).map(|cut| text[cut..].to_vec()).collect(),
    ];
    for text in texts.concat() {
        let name = text.escape_ascii().to_string();
        calls.agree(&name, &Case::of(&text, 3));
    }
    calls.counts.print("one text, damaged");
    calls.counts.came([None, Some(20)]);
}
