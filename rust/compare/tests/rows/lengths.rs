//! Rule buffers and texts of all lengths around the limits, and of none.
use dapohiru::Refusal;
use dapohiru_compare::compared::Compared;
use dapohiru_compare::guarded::lend_longer;
use dapohiru_compare::library::{Library, CALLS, GUARDED};
use dapohiru_compare::rows::{Case, Memory};
use dapohiru_compare::rulebuffer::LENGTHS;
use dapohiru_compare::wrapper::WRAPPER;
use dapohiru_generators::random::Random;
use dapohiru_generators::rows::{most_rows, of_rule};
use dapohiru_generators::samples::{in_loop, pair, sixteen};
use dapohiru_second::rows::{text, Given, LONGEST, ROW};
use dapohiru_second::rulebuffer::RULE;

const LIBRARIES: [Library; 2] = [GUARDED, WRAPPER];

#[test]
fn rule_buffer_of_any_length_but_256_is_13_and_left() {
    for job in [pair(), in_loop(), sixteen()] {
        let (given, rows) = of_rule(&job);
        let case = Case::of(given, &rows);
        let wanted = case.wanted(None);
        for library in LIBRARIES {
            let mut memory = Memory::new(library);
            for rule_len in (0..=600).chain(LENGTHS) {
                let seen = memory.call(&case.text, given, rule_len).unwrap();
                if rule_len == RULE {
                    assert_eq!(seen, wanted);
                } else {
                    assert_eq!((seen.number, seen.written), (13, vec![]), "{rule_len}");
                }
            }
        }
    }
}

#[test]
fn rule_buffer_of_256_bytes_in_the_lowest_24_bits_of_its_length_is_13_and_left() {
    let (given, rows) = of_rule(&pair());
    for library in LIBRARIES {
        let mut rule = vec![99; (1 << 24) + RULE];
        let number = (library.rows)(
            &text(&rows),
            given.states,
            given.symbols,
            given.finals,
            &mut rule,
        );
        assert_eq!(number, 13);
        assert!(rule.iter().all(|&byte| byte == 99));
    }
}

#[test]
fn rule_buffer_of_256_bytes_in_any_low_bits_of_its_length_is_13_and_left() {
    let (given, rows) = of_rule(&pair());
    let text = text(&rows);
    lend_longer(&[99; RULE], 8, |rule| {
        let number = (CALLS.rows)(&text, given.states, given.symbols, given.finals, rule);
        assert_eq!(number, 13, "{} bytes", rule.len());
    });
}

#[test]
fn text_of_a_sound_length_in_any_low_bits_of_its_own_is_17() {
    let (given, rows) = of_rule(&pair());
    let most = most_rows(&mut Random::of_this_run());
    for (given, rows) in [(given, rows), (given, vec![]), most] {
        let Given {
            states,
            symbols,
            finals,
        } = given;
        lend_longer(&text(&rows), 13, |text| {
            let mut rule = [99; RULE];
            let number = (CALLS.rows)(text, states, symbols, finals, &mut rule);
            assert_eq!((number, rule), (17, [99; RULE]), "{} bytes", text.len());
            let made = dapohiru::rows(text, states, symbols, finals);
            assert_eq!(made, Err(Refusal(17)), "{} bytes", text.len());
        });
    }
}

#[test]
fn text_of_any_length_is_read_to_its_end_and_no_further() {
    let mut random = Random::of_this_run();
    let (given, rows) = most_rows(&mut random);
    let whole = text(&rows);
    for library in LIBRARIES {
        let mut memory = Memory::new(library);
        let near = (0..=3 * ROW).chain(LONGEST - 2 * ROW..=LONGEST);
        for len in near.chain((0..LONGEST).step_by(97)) {
            // the text goes on in memory
            let (lent, past) = whole.split_at(len);
            let seen = memory.call_before(lent, past, given, RULE).unwrap();
            let wanted = match len {
                LONGEST => dapohiru::numbers::ACCEPTED,
                _ if len % ROW == 0 => 19,
                _ => 17,
            };
            assert_eq!(seen.number, wanted, "{len} bytes");
            let written = if len == LONGEST { RULE } else { 0 };
            assert_eq!(seen.written.len(), written, "{len} bytes");
        }
    }
}

#[test]
fn text_of_more_than_8192_bytes_is_17_whatever_it_holds() {
    let mut random = Random::of_this_run();
    let (given, rows) = most_rows(&mut random);
    let (most, few) = (text(&rows), of_rule(&pair()));
    let few = (few.0, text(&few.1));
    for library in LIBRARIES {
        let mut memory = Memory::new(library);
        for (given, sound) in [(given, &most), (few.0, &few.1)] {
            let cut = [13, 16].map(|bits| sound.len() + (1 << bits));
            for len in (LONGEST + 1..=LONGEST + 2 * ROW).chain(cut) {
                for fill in [&b"\n"[..], b" ", b"Q", b"\0", &sound[..]] {
                    let more = fill.repeat(len / fill.len() + 1);
                    let longer = [&sound[..], &more].concat();
                    let seen = memory.call(&longer[..len], given, RULE).unwrap();
                    assert_eq!((seen.number, seen.written), (17, vec![]), "{len} bytes");
                }
            }
        }
    }
}

#[test]
fn empty_buffers_are_lent_too() {
    let (given, rows) = of_rule(&pair());
    for library in LIBRARIES {
        let mut memory = Memory::new(library);
        for (text, rule_len, wanted) in [
            (&b""[..], 0, 13),
            (b"", RULE, 19),
            (&text(&rows), 0, 13),
            (b"Q", 0, 13),
        ] {
            let seen = memory.call(text, given, rule_len).unwrap();
            assert_eq!((seen.number, seen.written), (wanted, vec![]));
        }
    }
}
