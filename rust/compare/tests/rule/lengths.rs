//! Buffers of all lengths around the limits, and of none.
use dapohiru_compare::compared::Compared;
use dapohiru_compare::guarded::lend_longer;
use dapohiru_compare::library::{Library, CALLS, GUARDED};
use dapohiru_compare::rulebuffer::{LENGTHS, MOST_RULE};
use dapohiru_compare::ruling::{Case, Memory};
use dapohiru_compare::wrapper::WRAPPER;
use dapohiru_generators::samples::{in_loop, pair, points};
use dapohiru_second::reading::{LONGEST, WORK};
use dapohiru_second::rulebuffer::RULE;

const LIBRARIES: [Library; 2] = [GUARDED, WRAPPER];

#[test]
fn rule_buffer_of_any_length_but_256_is_13_and_left() {
    // the last has as many cells as its rule has bytes in a row
    for job in [pair(), in_loop(), points(15, 3)] {
        let file = job.file();
        let wanted = Case::of(&job).wanted(None);
        for library in LIBRARIES {
            let mut memory = Memory::new(library);
            for rule_len in (0..=600).chain(LENGTHS) {
                let seen = memory.call(&file, WORK, rule_len).unwrap();
                if rule_len == RULE {
                    assert_eq!(seen, wanted);
                } else {
                    assert_eq!((seen.number, seen.written), (13, vec![]), "{rule_len}");
                }
                assert_eq!(seen.cleared, WORK, "{rule_len}");
            }
        }
    }
}

#[test]
fn rule_buffer_of_256_bytes_in_the_lowest_24_bits_of_its_length_is_13_and_left() {
    let file = pair().file();
    for library in LIBRARIES {
        let mut work = vec![9; WORK];
        let mut rule = vec![99; (1 << 24) + RULE];
        assert_eq!((library.rule)(&file, &mut work, &mut rule), 13);
        assert!(rule.iter().all(|&byte| byte == 99));
        assert!(work.iter().all(|&byte| byte == 0));
    }
}

#[test]
fn rule_buffer_of_256_bytes_in_any_low_bits_of_its_length_is_13_and_left() {
    let file = pair().file();
    lend_longer(&[99; RULE], 8, |rule| {
        let number = (CALLS.rule)(&file, &mut [9; WORK], rule);
        assert_eq!(number, 13, "{} bytes", rule.len());
    });
}

#[test]
fn work_buffer_below_65536_bytes_is_2_whatever_the_rule_buffer() {
    let file = pair().file();
    for library in LIBRARIES {
        let mut memory = Memory::new(library);
        for work_len in [0, 1, 2, WORK / 2].into_iter().chain(WORK - 20..=WORK + 20) {
            for rule_len in [0, 1, 255, 256, 257, 512, MOST_RULE] {
                let seen = memory.call(&file, work_len, rule_len).unwrap();
                let name = format!("work buffer of {work_len}, rule buffer of {rule_len}");
                if work_len < WORK {
                    assert_eq!((seen.number, seen.cleared), (2, 0), "{name}");
                    assert_eq!(seen.written, vec![], "{name}");
                } else {
                    assert_eq!(seen.number == 13, rule_len != RULE, "{name}");
                    assert_eq!(seen.cleared, WORK, "{name}");
                    let written = if rule_len == RULE { RULE } else { 0 };
                    assert_eq!(seen.written.len(), written, "{name}");
                }
            }
        }
    }
}

#[test]
fn file_of_the_greatest_length_is_looked_at_and_one_byte_more_is_1() {
    for library in LIBRARIES {
        let mut memory = Memory::new(library);
        for (len, wanted) in [(LONGEST, 9), (LONGEST + 1, 1), (200_000, 1)] {
            let mut file = in_loop().file();
            file.resize(len, b'\n');
            for rule_len in [0, 255, 256, 257] {
                let seen = memory.call(&file, WORK, rule_len).unwrap();
                assert_eq!(seen.number, wanted, "{len} bytes");
                assert_eq!(seen.cleared, if wanted == 1 { 0 } else { WORK });
                // a short work buffer is tested after 1, and before a byte of the file is looked at
                let seen = memory.call(&file, WORK - 1, rule_len).unwrap();
                assert_eq!(seen.number, if wanted == 1 { 1 } else { 2 });
                assert_eq!((seen.written, seen.cleared), (vec![], 0));
            }
        }
    }
}

#[test]
fn empty_buffers_are_lent_too() {
    for library in LIBRARIES {
        let mut memory = Memory::new(library);
        for (work_len, rule_len, wanted) in [(0, 0, 2), (0, 256, 2), (WORK, 0, 3), (WORK, 256, 3)] {
            let seen = memory.call(b"", work_len, rule_len).unwrap();
            assert_eq!((seen.number, seen.written), (wanted, vec![]));
        }
        let seen = memory.call(&pair().file(), WORK, 0).unwrap();
        assert_eq!((seen.number, seen.cleared), (13, WORK));
    }
}

#[test]
fn file_that_goes_on_in_memory_past_its_end_is_cut_where_it_is_said_to_end() {
    let whole = pair().file();
    for library in LIBRARIES {
        let mut memory = Memory::new(library);
        for cut in 0..whole.len() {
            let (file, past) = whole.split_at(cut);
            let seen = memory.call_before(file, past, WORK, RULE).unwrap();
            let between_lines = file.last().is_none_or(|&byte| byte == b'\n');
            let wanted = if between_lines { 3 } else { 4 };
            assert_eq!(
                (seen.number, seen.written),
                (wanted, vec![]),
                "cut at {cut}"
            );
            assert_eq!(seen.cleared, WORK, "cut at {cut}");
        }
    }
}
