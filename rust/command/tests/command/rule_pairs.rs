//! Rule rows that name a pair twice or not at all, too many rows, and refused rows in a document.
use crate::json::is_document;
use crate::program::{example, run, PAIR, WINDOWS};
use crate::rule::{pair, ROWS, SIZES};
use crate::rule_faults::{told, with_second, REFUSED_17, REFUSED_18, REFUSED_19};
use dapohiru_second::job::{spell, Line};

#[test]
fn pair_that_two_rows_name_is_told_with_both_rows() {
    let more = |row: &str| format!("{ROWS}{row}");
    for (rows, place, expected) in [
        (
            more("Q     1     1     2     2     0\n"),
            "line 5, columns 2 to 25: found state 1 and symbol 2 again (state 1, symbol 2, next state 0)",
            "every pair in one row alone; line 4 has it too (states 1 to 2, symbol 2, next state 2)",
        ),
        // also where both say the same
        (
            more("Q     1     2     2     2     2\n"),
            "line 5, columns 2 to 25: found state 1 and symbol 2 again (states 1 to 2, symbol 2, next state 2)",
            "every pair in one row alone, also where two agree; line 4 has it too (states 1 to 2, symbol 2, next state 2)",
        ),
        // the first row that it meets
        (
            more("Q     0     2     1     2     0\n"),
            "line 5, columns 2 to 25: found state 0 and symbol 1 again (states 0 to 2, symbols 1 to 2, next state 0)",
            "every pair in one row alone, also where two agree; line 2 has it too (states 0 to 2, symbol 1, next state 0)",
        ),
        // before a pair without a row
        (
            ROWS.replace("Q     0     0     2     2     0", "Q     2     2     2     2     0"),
            "line 4, columns 2 to 25: found state 2 and symbol 2 again (states 1 to 2, symbol 2, next state 2)",
            "every pair in one row alone; line 3 has it too (state 2, symbol 2, next state 0)",
        ),
    ] {
        assert_eq!(pair("-", &[], &rows), told(REFUSED_18, place, expected));
    }
    let names = example("pair-full.names");
    let rows = more("Q     1     1     2     2     0\n");
    let done = pair("-", &["--names", &names], &rows);
    let place = "line 5, columns 2 to 25: found state 1 sealed and symbol 2 write again (state 1 sealed, symbol 2 write, next state 0 open)";
    let expected = "every pair in one row alone; line 4 has it too (states 1 sealed to 2 touched, symbol 2 write, next state 2 touched)";
    assert_eq!(done, told(REFUSED_18, place, expected));
}

#[test]
fn pairs_without_a_row_are_told() {
    let all = "pair of a state, 0 to 2, and a symbol, 0 to 2";
    let expected = format!("a row for every {all}");
    let narrowed = ROWS.replace("Q     1     2     2", "Q     1     1     2");
    for (rows, found) in [
        (
            &ROWS[..96],
            "found no row for state 1 and symbol 2, and none for 1 more pair",
        ),
        (
            &ROWS[32..],
            "found no row for state 0 and symbol 0, and none for 2 more pairs",
        ),
        (&narrowed, "found no row for state 2 and symbol 2"),
    ] {
        assert_eq!(pair("-", &[], rows), told(REFUSED_19, found, &expected));
    }
    let names = example("pair-full.names");
    let done = pair("-", &["--names", &names], &narrowed);
    let found = "found no row for state 2 touched and symbol 2 write";
    assert_eq!(done, told(REFUSED_19, found, &expected));
    let expected =
        format!("lines of the letter Q and 5 fields of six columns, which name every {all}");
    assert_eq!(
        pair("-", &[], ""),
        told(REFUSED_19, "found no row", &expected)
    );
}

/// What is added of a text of so many bytes.
fn besides(len: usize) -> String {
    format!("; besides, the text has {len} bytes, and at most 8192 are accepted (256 rows of 32)")
}

#[test]
fn more_than_256_rows_are_told() {
    // with S and A of 16 a row for each pair is accepted
    let row = |pair: u64| Line::new(b'Q', &[pair / 16, pair / 16, pair % 16, pair % 16, 0]);
    let lines: Vec<_> = (0..256).map(row).collect();
    let rows = String::from_utf8(spell(&lines)).unwrap();
    let words = ["rule", "-", "--states=16", "--symbols=16", "--finals=0"];
    assert_eq!(run(&words, &rows).0, 0);
    let done = run(&words, &(rows.clone() + &rows[..32]));
    let place = "line 257, column 1: found `Q`";
    let expected = "the end of the file, since there are at most 256 rows";
    assert_eq!(done, told(REFUSED_17, place, expected));
    // a wrong row before it comes first, with the length
    let form = "Q and 5 fields of six columns, 31 columns in all";
    let end = format!("the end of the line (byte 10) after {form}; this line has 32");
    let cut = rows.clone() + &rows[..40];
    let last = rows[..255 * 32].to_string() + &rows[..31] + &" ".repeat(2_000);
    let spaced = rows[..249 * 32].replace('\n', " \n");
    for (text, place, expected) in [
        (
            " ".repeat(8_193),
            "line 1, column 1: found ` `",
            "the letter Q",
        ),
        (
            PAIR.repeat(200),
            "line 1, column 1: found `J`",
            "the letter Q",
        ),
        (spaced, "line 1, column 32: found ` `", &end),
        (
            last,
            "line 256, column 32: found ` `",
            &end.replace("this line has 32", "this line has more than 1000"),
        ),
    ] {
        let done = run(&words, &text);
        let expected = format!("{expected}{}", besides(text.len()));
        assert_eq!(done, told(REFUSED_17, place, &expected));
    }
    // rows that meet and pairs without a row do not
    for text in [cut, rows[..32].repeat(300), rows[..32].repeat(257)] {
        let done = run(&words, &text);
        assert_eq!(done, told(REFUSED_17, place, expected));
    }
    // nor does a row too many where a number is wrong
    let words = [&["rule", "-"][..], &["--states=17", SIZES[1], SIZES[2]]].concat();
    let expected = format!("S, the number of states, 1 to 16{}", besides(16_384));
    let done = run(&words, &(rows.clone() + &rows));
    assert_eq!(done, told(REFUSED_17, "found --states 17", &expected));
    let windows = rows.replace('\n', "\r\n");
    let (_, _, wrong) = pair("-", &[], &windows);
    let ends = format!("{end}{}{WINDOWS}\n", besides(8_448));
    assert!(wrong.ends_with(&ends), "{wrong}");
    // an endless file
    let (status, _, wrong) = pair("/dev/zero", &[], "");
    assert_eq!(status, 2);
    let expected = format!("the letter Q{}", besides(65_536)).replace("65536", "65536 or more");
    let place = "line 1, column 1: found `\\0`";
    let longer = told(REFUSED_17, place, &expected).2;
    assert_eq!(wrong, longer.replace("standard input", "/dev/zero"));
}

#[test]
fn refused_rows_are_told_in_a_document_too() {
    let refused = |number: u64, refused: &str, rest: &str| {
        let meaning = refused.split_once(": ").unwrap().1;
        format!("{{\"rows\":\"-\",\"refused\":{{\"number\":{number},\"meaning\":\"{meaning}\",{rest}}}}}\n")
    };
    let row = with_second("Q     0     3     1     1     0\n");
    for (rows, document) in [
        (
            &row[..],
            refused(17, REFUSED_17, "\"line\":2,\"columns\":[8,13],\"found\":\"3\",\"expected\":\"the last state, 0 to 2\""),
        ),
        (
            &ROWS[..96],
            refused(19, REFUSED_19, "\"found\":\"no row for state 1 and symbol 2, and none for 1 more pair\",\"expected\":\"a row for every pair of a state, 0 to 2, and a symbol, 0 to 2\""),
        ),
    ] {
        is_document(&document);
        let (status, printed, wrong) = pair("-", &["--json"], rows);
        assert_eq!((status, printed), (2, document));
        assert_eq!(wrong, pair("-", &[], rows).2);
    }
    let (_, printed, _) = pair("-", &["--json"], &(ROWS.to_string() + &ROWS[..32]));
    is_document(&printed);
    assert!(printed.contains("\"number\":18,"), "{printed}");
    assert!(
        printed.contains("\"line\":5,\"columns\":[2,25],"),
        "{printed}"
    );
    // wrong words have none
    let done = run(&["rule", "-", "--states=x", SIZES[1], "--json"], ROWS);
    assert_eq!((done.0, done.1.as_str()), (2, ""));
}
