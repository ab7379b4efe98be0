//! Texts of as many pieces and letters as there is room for, and every A with one high bit.
use crate::agreement::Calls;
use dapohiru_compare::expression::{refused, Case};
use dapohiru_second::expression::LONGEST;

/// Pieces that come many times; those that end with a bar make a choice.
const PIECES: [&str; 7] = [
    "a|",
    "a*",
    "(a|b)*",
    "(ab)*|",
    "aaa|",
    "aaaaaaa|",
    "aaaaaaaaaaaaa|",
];
/// What follows the pieces; a text that ends with the last of them is none.
const LAST: [&str; 5] = ["a", "b", "ab", "b*", "a\r"];
/// What stands around them.
const AROUND: [(&str, &str); 3] = [("", ""), ("(", ")*"), ("b(", ")a")];

/// A text of so many pieces, if there is room for it or for all but one of its characters.
fn text(count: usize, piece: &str, last: &str, (before, after): (&str, &str)) -> Option<String> {
    let text = [before, &piece.repeat(count), last, after].concat();
    (text.len() <= LONGEST + 1).then_some(text)
}

#[test]
fn texts_of_many_pieces_agree() {
    let mut calls = Calls::new();
    let mut most_letters = 0;
    for count in 1..=LONGEST {
        for piece in PIECES {
            // few and all symbols in turn
            let mut symbols = [2, 16].into_iter().cycle().skip(count);
            for (last, around) in LAST
                .iter()
                .flat_map(|last| AROUND.map(|around| (last, around)))
            {
                let Some(text) = text(count, piece, last, around) else {
                    continue;
                };
                let symbols = symbols.next().expect("it goes on");
                let seen = calls.agree(&text, &Case::of(text.as_bytes(), symbols));
                if refused(seen.number).is_none() {
                    let letters = text.bytes().filter(u8::is_ascii_lowercase).count();
                    most_letters = letters.max(most_letters);
                }
            }
        }
    }
    calls.counts.print("texts of many pieces");
    calls.counts.came([None, Some(20), Some(21)]);
    println!("rules of up to {most_letters} letters");
    assert!(most_letters > 50);
}

#[test]
fn choices_of_all_the_first_letters_have_a_state_for_each() {
    let mut calls = Calls::new();
    for letters in 1..=16 {
        let choice: Vec<_> = (b'a'..).take(letters).map(|letter| [letter]).collect();
        let text = [b"(", &choice.join(&b'|')[..], b")*"].concat();
        for symbols in letters as u64..=16 {
            let seen = calls.agree(symbols, &Case::of(&text, symbols));
            // the start, a set for each letter, and the empty one where a symbol is no letter of the text
            let states = 1 + letters as u64 + u64::from(symbols > letters as u64);
            match refused(seen.number) {
                None => assert_eq!(seen.number >> 16, (1 << 32) + states),
                Some(number) => assert!(number == 21 && states > 16, "{letters} {symbols}"),
            }
        }
    }
    calls.counts.came([None, Some(21)]);
}

#[test]
fn symbols_with_any_high_bit_are_20() {
    let mut calls = Calls::new();
    let high = (4..64).flat_map(|bit| (1..=16).map(move |low| low + (1 << bit)));
    for symbols in (17..=300).chain(high) {
        let seen = calls.agree(symbols, &Case::of(b"a", symbols));
        assert_eq!(seen.number, 20, "{symbols}");
    }
}
