//! Plan files: what is read, what is turned down and where, and what is written.
use dapohiru::planfile::{read, write, PlanFileError};
use dapohiru_generators::random::Random;

#[test]
fn plan_that_is_written_is_read_again() {
    let mut random = Random::of_this_run();
    for len in 0..=512 {
        let plan: Vec<_> = (0..len).map(|_| random.below(2) as u8).collect();
        let file = write(&plan);
        assert_eq!(file.len(), len + 1);
        assert!(file.ends_with('\n'));
        assert_eq!(read(file.as_bytes()), Ok(plan.clone()));
        // the line's end may be missing
        assert_eq!(read(&file.as_bytes()[..len]), Ok(plan));
    }
}

#[test]
fn digits_above_1_are_for_the_plan_check() {
    let digits: Vec<_> = (0..10).collect();
    assert_eq!(read(b"0123456789\n"), Ok(digits.clone()));
    assert_eq!(write(&digits), "0123456789\n");
    assert_eq!(write(&[10, 99, 255]), "999\n");
}

#[test]
fn first_byte_that_is_no_digit_is_told_with_its_column() {
    for place in 0..12 {
        for found in (0..=255_u8).filter(|byte| !byte.is_ascii_digit()) {
            let mut file = b"011011011011\n".to_vec();
            file[place] = found;
            let column = place + 1;
            assert_eq!(read(&file), Err(PlanFileError { column, found }));
            // a second one after it changes nothing
            file[12] = b'x';
            assert_eq!(read(&file), Err(PlanFileError { column, found }));
        }
    }
}

#[test]
fn turned_down_file_is_told_in_words() {
    let expected = "\n  expected: one line of 0 and 1, a digit for each node";
    for (file, wanted) in [
        (&b"01x"[..], "line 1, column 3: found `x`"),
        (b"011\r\n", "line 1, column 4: found `\\r`"),
        (b" 011\n", "line 1, column 1: found ` `"),
        (b"\xef\xbb\xbf011\n", "line 1, column 1: found `\\xef`"),
        (b"01\0\n", "line 1, column 3: found `\\x00`"),
    ] {
        let said = read(file).unwrap_err().to_string();
        assert_eq!(said, format!("{wanted}{expected}"));
    }
    for (file, column) in [(&b"011\n\n"[..], 4), (b"01\n1\n", 3), (b"\n011\n", 1)] {
        let said = read(file).unwrap_err().to_string();
        let wanted = format!("line 1, column {column}: found the end of the line");
        assert_eq!(said, format!("{wanted}{expected} and nothing after it"));
    }
}
