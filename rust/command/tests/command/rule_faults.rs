//! Refused rule rows: the place of the fault, and what is expected there.
use crate::places::columns;
use crate::program::{file, folder, run_bytes, Done, PAIR, WINDOWS};
use crate::rule::{made, pair, ROWS, SIZES};
use dapohiru_generators::faults::{faulty, Fault, Form};
use dapohiru_generators::random::Random;
use dapohiru_generators::rows as generators;
use dapohiru_generators::zeros::filled;
use dapohiru_second::job::{spell, Line};
use dapohiru_second::rows::{self as second, text, Answer, Call, Given};

pub const REFUSED_17: &str = "refused 17: S, A, the final set, the count of rows, a row's form or a number is outside its limits, or a first exceeds a last";
pub const REFUSED_18: &str = "refused 18: two rows name one pair of a state and a symbol";
pub const REFUSED_19: &str = "refused 19: a pair of a state and a symbol has no row";
/// What is expected in a field of the wrong form.
const FIELD: &str = "a number in six columns, right-justified, with spaces or zeros before it and no space after a digit";
/// The form of a row.
const FORM: &str = "Q and 5 fields of six columns, 31 columns in all";

/// What is said of refused rows.
pub fn told(refused: &str, place: &str, expected: &str) -> Done {
    let wrong = format!("dapohiru: standard input: {refused}\n  {place}\n  expected: {expected}\n");
    (2, String::new(), wrong)
}

/// PAIR's rows with another text for the second of them.
pub fn with_second(row: &str) -> String {
    [&ROWS[..32], row, &ROWS[64..]].concat()
}

#[test]
fn what_was_expected_in_a_row_is_told() {
    let end = format!("the end of the line (byte 10) after {FORM}");
    for (row, place, expected) in [
        // the letter
        (
            "q     0     2     1     1     0\n",
            "line 2, column 1: found `q`",
            "the letter Q".to_string(),
        ),
        (
            "\n",
            "line 2, column 1: found the end of the line",
            "the letter Q".to_string(),
        ),
        (
            "R     0     0     1     0     0\n",
            "line 2, column 1: found `R`",
            "the letter Q".to_string(),
        ),
        // fields that are none
        (
            "Q     a     2     1     1     0\n",
            "line 2, columns 2 to 7: found `     a`",
            format!("the first state, 0 to 2: {FIELD}"),
        ),
        (
            "Q     0           1     1     0\n",
            "line 2, columns 8 to 13: found `      `",
            format!("the last state, 0 to 2: {FIELD}"),
        ),
        (
            "Q     0     2    -1     1     0\n",
            "line 2, columns 14 to 19: found `    -1`",
            format!("the first symbol, 0 to 2: {FIELD}"),
        ),
        (
            "Q     0     2     11        0 0\n",
            "line 2, columns 20 to 25: found `1     `",
            format!("the last symbol, 0 to 2: {FIELD}"),
        ),
        (
            "Q     0     2     1     10    0\n",
            "line 2, columns 26 to 31: found `0    0`",
            format!("the next state, 0 to 2: {FIELD}"),
        ),
        (
            "Q;0;2;1;1;0\n",
            "line 2, columns 2 to 7: found `;0;2;1`",
            format!("the first state, 0 to 2: {FIELD}, in a line of {FORM}; this line has 11"),
        ),
        // numbers outside their limits
        (
            "Q     3     2     1     1     0\n",
            "line 2, columns 2 to 7: found 3",
            "the first state, 0 to 2".to_string(),
        ),
        (
            "Q     0000003     1     1     0\n",
            "line 2, columns 8 to 13: found 3",
            "the last state, 0 to 2".to_string(),
        ),
        (
            "Q     0     2 65537     1     0\n",
            "line 2, columns 14 to 19: found 65537",
            "the first symbol, 0 to 2".to_string(),
        ),
        (
            "Q     0     2     1   257     0\n",
            "line 2, columns 20 to 25: found 257",
            "the last symbol, 0 to 2".to_string(),
        ),
        (
            "Q     0     2     1     1999999\n",
            "line 2, columns 26 to 31: found 999999",
            "the next state, 0 to 2".to_string(),
        ),
        // a first above its last
        (
            "Q     2     1     1     1     0\n",
            "line 2, columns 8 to 13: found 1",
            "the last state, no less than the first state, which is 2".to_string(),
        ),
        (
            "Q     0     2     1     0     0\n",
            "line 2, columns 20 to 25: found 0",
            "the last symbol, no less than the first symbol, which is 1".to_string(),
        ),
        // too long, or with other ends
        (
            "Q     0     2     1     1      0\n",
            "line 2, columns 26 to 31: found `      `",
            format!("the next state, 0 to 2: {FIELD}, in a line of {FORM}; this line has 32"),
        ),
        (
            "Q     0     2     1     1     00\n",
            "line 2, column 32: found `0`",
            format!("{end}; this line has 32"),
        ),
        (
            "Q     0     2     1     1     0\r\n",
            "line 2, column 32: found `\\r`",
            format!("{end}; this line has 32{WINDOWS}"),
        ),
        (
            "Q     0     2     1     1     0",
            "line 2, column 32: found `Q`",
            format!("{end}; this line has 62"),
        ),
    ] {
        let done = pair("-", &[], &with_second(row));
        assert_eq!(done, told(REFUSED_17, place, &expected), "{row}");
    }
    // the text ends within a row
    let short = &ROWS[..ROWS.len() - 1];
    let place = "line 4, column 32: found the end of the file";
    assert_eq!(pair("-", &[], short), told(REFUSED_17, place, &end));
    let place = "line 4, columns 26 to 31: found the end of the file";
    let expected =
        format!("the next state, 0 to 2: {FIELD}, in a line of {FORM}; this line has 25");
    let done = pair("-", &[], &ROWS[..ROWS.len() - 7]);
    assert_eq!(done, told(REFUSED_17, place, &expected));
    // another file
    let done = pair("-", &[], PAIR);
    let place = "line 1, column 1: found `J`";
    assert_eq!(done, told(REFUSED_17, place, "the letter Q"));
}

#[test]
fn every_fault_of_a_row_is_told_with_its_line_and_columns() {
    let mut random = Random::of_this_run();
    let rows = [
        [0, 2, 0, 0, 1],
        [0, 2, 1, 1, 0],
        [0, 0, 2, 2, 0],
        [1, 2, 2, 2, 2],
    ];
    let lines = rows.map(|row| Line::new(b'Q', &row));
    assert_eq!(spell(&lines), ROWS.as_bytes());
    let mut faults = Vec::new();
    for line in 0..lines.len() {
        faults.extend(Form::ALL.map(|form| Fault::Form(line, form)));
        for field in 0..5 {
            faults.extend([3, 16, 256, 65_536, 999_999].map(|n| Fault::Number(line, field, n)));
        }
    }
    for fault in faults {
        let (line, _) = fault.place(&lines);
        let text = filled(&mut random, faulty(&lines, &[fault]));
        let words = [&["rule", "-"][..], &SIZES].concat();
        let (status, printed, wrong) = run_bytes(&words, &text);
        assert_eq!((status, printed.as_str()), (2, ""), "{fault:?}");
        let columns = columns(fault, &[b'Q'; 4], 5).unwrap();
        let place = format!("{REFUSED_17}\n  line {}, {columns}: found ", line + 1);
        let begins = format!("dapohiru: standard input: {place}");
        assert!(wrong.starts_with(&begins), "{fault:?}: {wrong}");
        assert!(wrong.contains("\n  expected: "), "{fault:?}: {wrong}");
    }
}

/// Any rows with what is given with them, most of them refused.
fn any_rows(random: &mut Random) -> (Given, Vec<u8>) {
    let mut given = generators::given(random);
    let mut rows = generators::rows(random, given);
    match random.below(6) {
        0 => generators::name_twice(random, given, &mut rows),
        1 => generators::leave_out(random, &mut rows),
        2 => given = generators::wrong_given(random, given),
        3 => {
            let text = generators::refused(random, given, &rows);
            return (given, text);
        }
        4 => {
            let text = generators::damaged(random, &rows);
            return (given, text);
        }
        _ => {}
    }
    let text = filled(random, text(&rows));
    (given, text)
}

#[test]
fn refusal_of_any_rows_is_told_with_what_was_expected() {
    let mut random = Random::of_this_run();
    let mut told = [0; 4];
    for _ in 0..500 {
        let (given, text) = any_rows(&mut random);
        let (status, printed, wrong) = made(given, &text);
        let shown = format!("{given:?} {}", text.escape_ascii());
        let call = Call {
            text: &text,
            given,
            rule_len: 256,
        };
        let number = match second::make(&call, None).answer {
            Answer::Refused(number) => number as usize,
            Answer::Made(_) => {
                assert_eq!(status, 0, "{shown}: {wrong}");
                told[0] += 1;
                continue;
            }
        };
        assert_eq!((status, printed.as_str()), (2, ""), "{shown}");
        // the fault is told where the second reading finds the library's number
        let refused = [REFUSED_17, REFUSED_18, REFUSED_19][number - 17];
        let begins = format!("dapohiru: standard input: {refused}\n  ");
        assert!(wrong.starts_with(&begins), "{shown}: {wrong}");
        assert!(wrong.contains("\n  expected: "), "{shown}: {wrong}");
        told[number - 16] += 1;
    }
    println!("accepted, then refusals by number: {told:?}");
    assert!(told.iter().all(|&count| count > 0), "{told:?}");
}

#[test]
fn rows_are_named_in_one_line_whatever_their_name_holds() {
    let folder = folder("rule-named");
    let rows = file(&folder, "a\n\x1b[2Jb", b"Q\n");
    let (status, _, wrong) = pair(&rows, &[], "");
    assert_eq!(status, 2);
    let named = format!("{}/a\\n\\u{{1b}}[2Jb: {REFUSED_17}\n", folder.display());
    assert!(wrong.starts_with(&format!("dapohiru: {named}")), "{wrong}");
}
