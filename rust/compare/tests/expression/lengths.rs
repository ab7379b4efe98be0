//! Rule buffers and texts of all lengths around the limits, and of none.
use dapohiru::numbers::ACCEPTED;
use dapohiru::Refusal;
use dapohiru_compare::compared::Compared;
use dapohiru_compare::expression::{Case, Memory, Symbols};
use dapohiru_compare::guarded::lend_longer;
use dapohiru_compare::library::{Library, CALLS, GUARDED};
use dapohiru_compare::rulebuffer::LENGTHS;
use dapohiru_compare::wrapper::WRAPPER;
use dapohiru_generators::expressions::SEALED;
use dapohiru_second::expression::LONGEST;
use dapohiru_second::rulebuffer::RULE;

const LIBRARIES: [Library; 2] = [GUARDED, WRAPPER];

#[test]
fn rule_buffer_of_any_length_but_256_is_13_and_left() {
    // sound, outside the grammar, and of too many states
    for (text, symbols) in [(SEALED, 3), (b"a*", 1), (b"(", 1), (&[b'a'; 15], 1)] {
        let wanted = Case::of(text, symbols).wanted(None);
        for library in LIBRARIES {
            let mut memory = Memory::new(library);
            for rule_len in (0..=600).chain(LENGTHS) {
                let seen = memory.call(text, Symbols(symbols), rule_len).unwrap();
                if rule_len == RULE {
                    assert_eq!(seen, wanted);
                } else {
                    assert_eq!((seen.number, seen.written), (13, vec![]), "{rule_len}");
                }
            }
        }
    }
}

#[test]
fn rule_buffer_of_256_bytes_in_any_low_bits_of_its_length_is_13_and_left() {
    lend_longer(&[99; RULE], 8, |rule| {
        let number = (CALLS.expression)(SEALED, 3, rule);
        assert_eq!(number, 13, "{} bytes", rule.len());
    });
}

#[test]
fn text_of_a_sound_length_in_any_low_bits_of_its_own_is_20() {
    for text in [
        SEALED,
        b"",
        b"a",
        &[b'a'; 20],
        &[&b"a"[..], &[b'*'; 63]].concat(),
    ] {
        lend_longer(text, 6, |text| {
            let mut rule = [99; RULE];
            let number = (CALLS.expression)(text, 3, &mut rule);
            assert_eq!((number, rule), (20, [99; RULE]), "{} bytes", text.len());
            let made = dapohiru::expression(text, 3);
            assert_eq!(made, Err(Refusal(20)), "{} bytes", text.len());
        });
    }
}

#[test]
fn text_is_read_to_its_end_and_no_further() {
    // a text that may end after every letter and star, and goes on in memory
    let whole = b"ab*c|(ab)*|a*b**|cc|((a|b)*|c)*b|a*a*a*a*|b*b*b*|c*c*|(c|b|a)*abc";
    assert!(whole.len() > LONGEST);
    for library in LIBRARIES {
        let mut memory = Memory::new(library);
        let mut accepted = 0;
        for len in 0..=whole.len() {
            let (lent, past) = whole.split_at(len);
            let seen = memory.call_before(lent, past, Symbols(3), RULE).unwrap();
            let wanted = Case::of(lent, 3).wanted(None);
            assert_eq!(seen, wanted, "{len} bytes");
            accepted += usize::from(seen.number >= ACCEPTED);
        }
        println!("{accepted} of {} texts make a rule", whole.len() + 1);
        assert!(accepted > 20);
    }
}

#[test]
fn text_of_more_than_64_characters_is_20_whatever_it_holds() {
    for library in LIBRARIES {
        let mut memory = Memory::new(library);
        for sound in [&b"a"[..], SEALED, b"a*", &[b'a'; 20], b""] {
            let cut = [8, 16].map(|bits| sound.len() + (1 << bits));
            for len in (LONGEST + 1..=2 * LONGEST).chain(cut) {
                for fill in [&b"*"[..], b"a", b"|a", b")", b"\0", b"()"] {
                    let more = fill.repeat(len / fill.len() + 1);
                    let longer = [sound, &more].concat();
                    let seen = memory.call(&longer[..len], Symbols(3), RULE).unwrap();
                    assert_eq!((seen.number, seen.written), (20, vec![]), "{len} bytes");
                }
            }
        }
    }
}

#[test]
fn empty_buffers_are_lent_too() {
    for library in LIBRARIES {
        let mut memory = Memory::new(library);
        for (text, rule_len, wanted) in [
            (&b""[..], 0, 13),
            (b"", RULE, 20),
            (SEALED, 0, 13),
            (b"(", 0, 13),
            (&[b'a'; 15], 0, 13),
        ] {
            let seen = memory.call(text, Symbols(3), rule_len).unwrap();
            assert_eq!((seen.number, seen.written), (wanted, vec![]));
        }
    }
}
