//! Rules of expressions worked out by hand, and texts at the limits of the grammar and of the call.
use crate::agreement::Calls;
use dapohiru::numbers::ACCEPTED;
use dapohiru_compare::expression::{refused, Case};

/// What a call leaves: the states, the final set and the table, or the refusal.
#[track_caller]
fn made(calls: &mut Calls, text: &[u8], symbols: u64) -> Result<(u64, u64, Vec<u8>), u64> {
    let seen = calls.agree(text.escape_ascii(), &Case::of(text, symbols));
    match refused(seen.number) {
        None => {
            let table = seen.table().expect("every byte is written");
            let (states, finals) = (seen.number >> 16 & 0xffff, seen.number & 0xffff);
            assert_eq!(seen.number, ACCEPTED + (states << 16) + finals);
            Ok((states, finals, table))
        }
        Some(number) => {
            assert_eq!(seen.written, vec![]);
            Err(number)
        }
    }
}

/// The count of states, or the refusal.
#[track_caller]
fn states(calls: &mut Calls, text: &[u8], symbols: u64) -> Result<u64, u64> {
    made(calls, text, symbols).map(|(states, _, _)| states)
}

/// Asks for a rule with these next states, zeros past them, and these final states.
#[track_caller]
fn has_rule(text: &[u8], symbols: u64, next: &[&[u8]], finals: u64) {
    let mut table = vec![0; 256];
    for (row, next) in table.chunks_mut(16).zip(next) {
        assert_eq!(next.len() as u64, symbols);
        row[..next.len()].copy_from_slice(next);
    }
    let wanted = (next.len() as u64, finals, table);
    let made = made(&mut Calls::new(), text, symbols);
    assert_eq!(made, Ok(wanted), "{}", text.escape_ascii());
}

#[test]
fn sealed_then_anything_but_reopened_then_written_has_five_states() {
    let next: [&[u8]; 5] = [&[1, 2, 2], &[3, 2, 4], &[2, 2, 2], &[3, 2, 4], &[3, 2, 4]];
    has_rule(b"a(a|c)*c", 3, &next, 1 << 4);
}

#[test]
fn one_letter_has_the_start_its_set_and_the_empty_one() {
    has_rule(b"a", 1, &[&[1], &[2], &[2]], 0b10);
    has_rule(b"a", 2, &[&[1, 2], &[2, 2], &[2, 2]], 0b10);
    // the empty set is met first
    has_rule(b"b", 2, &[&[1, 2], &[1, 1], &[1, 1]], 0b100);
    let (start, rest) = ([&[1; 15][..], &[2]].concat(), [1; 16]);
    has_rule(b"p", 16, &[&start, &rest, &rest], 0b100);
}

#[test]
fn start_is_a_state_of_its_own_and_never_final() {
    has_rule(b"a*", 1, &[&[1], &[1]], 0b10);
    has_rule(b"(a|b)*", 2, &[&[1, 2], &[1, 2], &[1, 2]], 0b110);
    // a letter that stands twice is two places
    has_rule(b"aa*", 1, &[&[1], &[2], &[2]], 0b110);
    has_rule(b"a|a", 1, &[&[1], &[2], &[2]], 0b10);
    has_rule(b"a*a*", 1, &[&[1], &[1]], 0b10);
}

#[test]
fn anything_then_written_has_a_state_for_each_letter() {
    let all: &[u8] = &[1, 2, 3];
    has_rule(b"(a|b)*c", 3, &[all, all, all, &[4; 3], &[4; 3]], 1 << 3);
}

#[test]
fn star_binds_before_following_on_and_that_before_the_bar() {
    let mut calls = Calls::new();
    for (text, same) in [
        (&b"ab*"[..], &b"a(b*)"[..]),
        (b"ab|ba", b"(ab)|(ba)"),
        (b"a|ba", b"a|(ba)"),
        (b"a|b*", b"a|(b*)"),
        (b"ab**", b"a((b)*)*"),
        (b"(a)(b)", b"((a)b)"),
        (b"a|b|a", b"(a|b)|a"),
        (b"aba", b"a(ba)"),
    ] {
        let wanted = made(&mut calls, text, 2);
        assert!(wanted.is_ok());
        assert_eq!(made(&mut calls, same, 2), wanted, "{}", text.escape_ascii());
    }
    for (text, other) in [
        (&b"ab*"[..], &b"(ab)*"[..]),
        (b"ab|ba", b"a(b|b)a"),
        (b"a|ba", b"(a|b)a"),
        (b"a|b*", b"(a|b)*"),
        (b"a*b*", b"(a*b)*"),
    ] {
        let [one, two] = [text, other].map(|text| made(&mut calls, text, 2));
        assert!(one.is_ok() && two.is_ok());
        assert_ne!(one, two, "{}", text.escape_ascii());
    }
}

#[test]
fn sixteen_states_are_made_and_seventeen_are_21() {
    let mut calls = Calls::new();
    for (letters, wanted) in [(1, Ok(3)), (13, Ok(15)), (14, Ok(16)), (15, Err(21))] {
        assert_eq!(states(&mut calls, &vec![b'a'; letters], 1), wanted);
    }
    for letters in 15..=64 {
        assert_eq!(states(&mut calls, &vec![b'a'; letters], 1), Err(21));
        assert_eq!(states(&mut calls, &vec![b'p'; letters], 16), Err(21));
    }
    // round and round there is no empty set, but with another symbol there is
    let round = |letters: usize| [&b"("[..], &vec![b'a'; letters], b")*"].concat();
    assert_eq!(states(&mut calls, &round(15), 1), Ok(16));
    assert_eq!(states(&mut calls, &round(15), 2), Err(21));
    assert_eq!(states(&mut calls, &round(14), 2), Ok(16));
    assert_eq!(states(&mut calls, &round(16), 1), Err(21));
    // fifteen letters and the start, of which every one can come first; with the empty set there are 17
    let one_of = |letters: &[u8]| {
        let bars: Vec<_> = letters.iter().map(|&letter| vec![letter]).collect();
        [&b"("[..], &bars.join(&b'|'), b")*"].concat()
    };
    assert_eq!(states(&mut calls, &one_of(b"abcdefghijklmno"), 15), Ok(16));
    assert_eq!(states(&mut calls, &one_of(b"abcdefghijklmno"), 16), Err(21));
    assert_eq!(
        states(&mut calls, &one_of(b"abcdefghijklmnop"), 16),
        Err(21)
    );
    // few letters and many sets: which of the last events was an a
    assert_eq!(states(&mut calls, b"(a|b)*a(a|b)", 2), Ok(5));
    assert_eq!(states(&mut calls, b"(a|b)*a(a|b)(a|b)", 2), Ok(9));
    assert_eq!(states(&mut calls, b"(a|b)*a(a|b)(a|b)(a|b)", 2), Err(21));
    // many letters and few sets
    let many = [&b"("[..], &b"a|".repeat(29), b"a)*"].concat();
    assert_eq!(states(&mut calls, &many, 1), Ok(2));
}

#[test]
fn text_of_64_characters_is_read_and_one_of_65_is_20() {
    let mut calls = Calls::new();
    let starred = |stars: usize| [&b"a"[..], &vec![b'*'; stars]].concat();
    assert_eq!(states(&mut calls, &starred(63), 1), Ok(2));
    assert_eq!(states(&mut calls, &starred(64), 1), Err(20));
    let deep = |depth: usize| [&vec![b'('; depth], &b"a"[..], &vec![b')'; depth]].concat();
    assert_eq!(states(&mut calls, &deep(31), 1), Ok(3));
    assert_eq!(states(&mut calls, &deep(32), 1), Err(20));
    // where 21 would follow
    assert_eq!(states(&mut calls, &[b'a'; 64], 1), Err(21));
    assert_eq!(states(&mut calls, &[b'a'; 65], 1), Err(20));
    for len in [66, 100, 256, 257, 320, 65_536, 65_537, 65_600] {
        assert_eq!(states(&mut calls, &vec![b'a'; len], 1), Err(20), "{len}");
        assert_eq!(states(&mut calls, &starred(len), 1), Err(20), "{len}");
    }
}

#[test]
fn text_outside_the_grammar_is_20() {
    let mut calls = Calls::new();
    for text in [
        &b""[..],
        b"*a",
        b"|a",
        b"a|",
        b"()",
        b"(",
        b")",
        b"*",
        b"|",
        b"a()",
        b"()a",
        b"()*",
        b"(*a)",
        b"(|a)",
        b"(a|)",
        b"a||a",
        b"a|*",
        b"(a",
        b"a)",
        b")a(",
        b"((a)",
        b"(a))",
        b"a(*)",
        b"a|)a(",
        b"a(|)",
        b" a",
        b"a ",
        b"a\n",
        b"a\0",
        b"A",
        b"a.a",
        b"a+a",
        b"a?",
        b"[a]",
        b"a-p",
        b"q",
        b"aq",
        b"`",
        b"{",
        b"\xe1",
        b"0",
    ] {
        for symbols in [1, 2, 15, 16] {
            let name = text.escape_ascii();
            assert_eq!(states(&mut calls, text, symbols), Err(20), "{name}");
            // in a text that has too many states besides
            let many = [&[b'a'; 20], &b"("[..], text, b")"].concat();
            assert_eq!(states(&mut calls, &many, symbols), Err(20), "{name}");
        }
    }
}

#[test]
fn letter_of_a_or_more_is_20_also_in_a_text_of_too_many_states() {
    let mut calls = Calls::new();
    for symbols in 1..=16 {
        for (letter, symbol) in (b'a'..=b'z').zip(0..) {
            let wanted = if symbol < symbols { Ok(3) } else { Err(20) };
            assert_eq!(states(&mut calls, &[letter], symbols), wanted);
            let refusal = if symbol < symbols { 21 } else { 20 };
            for place in [0, 10, 20] {
                let mut text = [b'a'; 21];
                text[place] = letter;
                assert_eq!(states(&mut calls, &text, symbols), Err(refusal));
            }
        }
    }
}

#[test]
fn symbols_outside_1_to_16_are_20() {
    let mut calls = Calls::new();
    let high = |low: u64| [8, 16, 32, 63].map(|bits| low + (1 << bits));
    let wrong = [0, 17, 18, 255, u64::MAX].into_iter();
    for symbols in wrong.chain(high(0)).chain(high(1)).chain(high(16)) {
        for text in [&b"a"[..], b"", b"a*", &[b'a'; 20], b"p"] {
            assert_eq!(states(&mut calls, text, symbols), Err(20), "{symbols}");
        }
    }
    for symbols in 1..=16 {
        let wanted = if symbols == 1 { 2 } else { 3 };
        assert_eq!(states(&mut calls, b"a*", symbols), Ok(wanted));
    }
}
