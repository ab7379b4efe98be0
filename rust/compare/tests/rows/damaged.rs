//! Texts with damage.
use crate::agreement::{Calls, ALL};
use dapohiru_compare::compared::Compared;
use dapohiru_compare::damage;
use dapohiru_compare::library::CALLS;
use dapohiru_compare::memory::Counts;
use dapohiru_compare::rows::{refused, Case, Memory};
use dapohiru_generators::random::Random;
use dapohiru_generators::rows::{self, of_rule};
use dapohiru_generators::samples::pair;
use dapohiru_generators::sized::Sizes;
use dapohiru_generators::zeros::{filled, zero_filled};
use dapohiru_second::job::spell;
use dapohiru_second::rows::{lines, text, Given, Row};

#[test]
fn damaged_texts_are_refused_or_make_the_rule_that_they_spell() {
    const TEXTS: usize = 12_000;
    let mut random = Random::of_this_run();
    let mut calls = Calls::new();
    for number in 0..TEXTS {
        let given = rows::given(&mut random);
        let mut sound = rows::rows(&mut random, given);
        if random.once_in(4) {
            rows::name_twice(&mut random, given, &mut sound);
        }
        let text = rows::damaged(&mut random, &sound);
        calls.agree(format_args!("text {number}"), &Case::of_text(given, text));
    }
    calls.counts.print(&format!("{TEXTS} texts"));
    calls.counts.came([None, Some(17), Some(18), Some(19)]);
}

#[test]
fn every_damage_of_the_rows_of_pair_agrees() {
    let mut random = Random::of_this_run();
    let (given, rows) = of_rule(&pair());
    let lines = lines(&rows);
    let whole = spell(&lines);
    // the numbers near those of rows
    let sizes = Sizes {
        states: given.states,
        symbols: given.symbols,
        nodes: 16,
        edges: 17,
    };
    let files = [
        damage::bytes_replaced(&whole, damage::BYTES),
        damage::bytes_replaced(&zero_filled(whole.clone()), damage::BYTES),
        damage::bytes_moved(&whole, b" 01Q\n\r"),
        damage::lines_moved(&lines),
        damage::numbers_replaced(&lines, sizes),
        damage::fields_misspelled(&lines),
        damage::shape_changed(&lines),
        (0..whole.len()).map(|cut| whole[..cut].to_vec()).collect(),
    ];
    let mut calls = Calls::new();
    for text in files.concat() {
        let name = text.escape_ascii().to_string();
        let zeros = filled(&mut random, text.clone());
        let with_zeros = calls.agree(&name, &Case::of_text(given, zeros));
        let seen = calls.agree(&name, &Case::of_text(given, text));
        assert_eq!(seen, with_zeros, "{name}");
    }
    calls.counts.print("the rows of PAIR, damaged");
    calls.counts.came([None, Some(17), Some(18), Some(19)]);
}

#[test]
fn every_byte_replaced_by_every_other_agrees() {
    let every: Vec<u8> = (0..=255).collect();
    let row = |states: [u64; 2], symbols: [u64; 2], next: u64| Row {
        states,
        symbols,
        next,
    };
    let (low, high, all) = ([0, 7], [8, 15], [0, 15]);
    // where a byte is read as one more digit, up to 15, its number is within its limits
    let sixteen = Given {
        states: 16,
        symbols: 16,
        finals: 1 << 15,
    };
    let four = vec![
        row(low, low, 0),
        row(low, high, 7),
        row(high, low, 10),
        row(high, high, 15),
    ];
    let mut memory = Memory::new(CALLS);
    let mut counts = Counts::default();
    for (given, rows) in [
        of_rule(&pair()),
        (sixteen, vec![row(all, all, 9)]),
        (sixteen, four),
    ] {
        let spaced = text(&rows);
        for whole in [zero_filled(spaced.clone()), spaced] {
            for text in damage::bytes_replaced(&whole, &every) {
                let compared = Case::of_text(given, text).compare(&mut memory, None);
                counts.agree("a byte", compared, |seen| refused(seen.number));
            }
        }
    }
    counts.print("every byte replaced by every other");
    counts.came([None, Some(17), Some(18), Some(19)]);
}

#[test]
fn rows_of_pair_agree_under_other_sizes() {
    let mut calls = Calls::new();
    let (given, rows) = of_rule(&pair());
    let text = spell(&lines(&rows));
    for states in 0..=18 {
        for symbols in 0..=18 {
            for finals in [0, 1, 0b100, 0b1000, 1 << 15, 1 << 16, 1 << 63, u64::MAX] {
                let given = Given {
                    states,
                    symbols,
                    finals,
                };
                calls.agree("other sizes", &Case::of_text(given, text.clone()));
                let mut case = Case::of_text(given, text.clone());
                case.rule_len = 255;
                calls.agree("other sizes", &case);
            }
        }
    }
    calls.counts.print(&format!("other sizes than {given:?}"));
    calls
        .counts
        .came(ALL.into_iter().filter(|&answer| answer != Some(18)));
}
