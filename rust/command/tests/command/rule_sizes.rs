//! S, A and the final states that `rule` is given: outside their limits, too large for a call, and no numbers at all.
use crate::json::is_document;
use crate::program::{example, run};
use crate::rule::{ROWS, SIZES};
use crate::rule_faults::{told, REFUSED_17};

#[test]
fn sizes_outside_their_limits_are_told_with_them() {
    for (words, found, expected) in [
        (
            ["--states=0", SIZES[1], SIZES[2]],
            "--states 0",
            "S, the number of states, 1 to 16",
        ),
        (
            ["--states=17", SIZES[1], SIZES[2]],
            "--states 17",
            "S, the number of states, 1 to 16",
        ),
        (
            ["--states=300", "--symbols=0", SIZES[2]],
            "--states 300",
            "S, the number of states, 1 to 16",
        ),
        (
            ["--states=18446744073709551615", SIZES[1], SIZES[2]],
            "--states 18446744073709551615",
            "S, the number of states, 1 to 16",
        ),
        (
            [SIZES[0], "--symbols=0", SIZES[2]],
            "--symbols 0",
            "A, the number of symbols, 1 to 16",
        ),
        (
            [SIZES[0], "--symbols=17", SIZES[2]],
            "--symbols 17",
            "A, the number of symbols, 1 to 16",
        ),
        (
            [SIZES[0], "--symbols=65537", "--finals=9"],
            "--symbols 65537",
            "A, the number of symbols, 1 to 16",
        ),
        (
            [SIZES[0], SIZES[1], "--finals=3"],
            "--finals with 3",
            "final states below S, 0 to 2",
        ),
        (
            [SIZES[0], SIZES[1], "--finals=63,1,5"],
            "--finals with 63",
            "final states below S, 0 to 2",
        ),
    ] {
        let words = [&["rule", "-"][..], &words].concat();
        let wanted = told(REFUSED_17, &format!("found {found}"), expected);
        assert_eq!(run(&words, ROWS), wanted);
        // names are of no use then
        if words.contains(&"--states=17") {
            let names = format!("--names={}", example("pair.names"));
            assert_eq!(run(&[&words[..], &[&names]].concat(), ROWS), wanted);
        }
    }
}

#[test]
fn sizes_that_are_no_numbers_are_told_as_words() {
    let list = "and final states are numbers with a comma between them, such as 0,2";
    for (words, why) in [
        (
            ["--states=x", SIZES[1], SIZES[2]],
            "--states is `x`, and S is a number, 1 to 16".to_string(),
        ),
        (
            ["--states=-1", SIZES[1], SIZES[2]],
            "--states is `-1`, and S is a number, 1 to 16".to_string(),
        ),
        (
            ["--states=+3", SIZES[1], SIZES[2]],
            "--states is `+3`, and S is a number, 1 to 16".to_string(),
        ),
        (
            ["--states= 3", SIZES[1], SIZES[2]],
            "--states is ` 3`, and S is a number, 1 to 16".to_string(),
        ),
        (
            [SIZES[0], "--symbols=3 ", SIZES[2]],
            "--symbols is `3 `, and A is a number, 1 to 16".to_string(),
        ),
        (
            [SIZES[0], "--symbols=\x1b", SIZES[2]],
            "--symbols is `\\u{1b}`, and A is a number, 1 to 16".to_string(),
        ),
        (
            [SIZES[0], SIZES[1], "--finals=a"],
            format!("--finals is `a`, {list}"),
        ),
        (
            [SIZES[0], SIZES[1], "--finals=0,"],
            format!("--finals is `0,`, {list}"),
        ),
        (
            [SIZES[0], SIZES[1], "--finals=,2"],
            format!("--finals is `,2`, {list}"),
        ),
        (
            [SIZES[0], SIZES[1], "--finals=0, 2"],
            format!("--finals is `0, 2`, {list}"),
        ),
        (
            [SIZES[0], SIZES[1], "--finals=0;2"],
            format!("--finals is `0;2`, {list}"),
        ),
        (
            [SIZES[0], SIZES[1], "--finals=1,2,1"],
            "--finals names state 1 twice".to_string(),
        ),
        (
            [SIZES[0], SIZES[1], "--finals=2,02"],
            "--finals names state 2 twice".to_string(),
        ),
        (
            [SIZES[0], SIZES[1], "--finals=64,64"],
            "--finals names state 64 twice".to_string(),
        ),
    ] {
        for form in [&[][..], &["--json"]] {
            let done = run(&[&["rule", "-"][..], &words, form].concat(), ROWS);
            assert_eq!(done, (2, String::new(), format!("dapohiru: rule: {why}\n")));
        }
    }
}

#[test]
fn numbers_that_no_call_can_be_given_are_told_with_their_limits() {
    let states = "S, the number of states, 1 to 16";
    let finals = "final states below S, 0 to 2";
    for (words, found, expected) in [
        (
            ["--states=18446744073709551616", SIZES[1], SIZES[2]],
            "--states 18446744073709551616",
            states,
        ),
        (
            ["--states=099999999999999999999", "--symbols=0", SIZES[2]],
            "--states 99999999999999999999",
            states,
        ),
        (
            [SIZES[0], "--symbols=18446744073709551619", SIZES[2]],
            "--symbols 18446744073709551619",
            "A, the number of symbols, 1 to 16",
        ),
        (
            [SIZES[0], SIZES[1], "--finals=2,64"],
            "--finals with 64",
            finals,
        ),
        (
            [SIZES[0], SIZES[1], "--finals=4294967298"],
            "--finals with 4294967298",
            finals,
        ),
        (
            [SIZES[0], SIZES[1], "--finals=18446744073709551616"],
            "--finals with 18446744073709551616",
            finals,
        ),
        // another number is wrong before it
        (
            ["--states=300", SIZES[1], "--finals=299"],
            "--states 300",
            states,
        ),
    ] {
        let words = [&["rule", "-"][..], &words].concat();
        let meaning = "a number given with the rows is outside its limits";
        let wrong = format!(
            "dapohiru: rule: refused before the call: {meaning}\n  found {found}\n  expected: {expected}\n"
        );
        assert_eq!(run(&words, ROWS), (2, String::new(), wrong.clone()));
        let document = format!(
            "{{\"rows\":\"-\",\"refused\":{{\"meaning\":\"{meaning}\",\"found\":\"{found}\",\"expected\":\"{expected}\"}}}}\n"
        );
        is_document(&document);
        let done = run(&[&words[..], &["--json"]].concat(), ROWS);
        assert_eq!(done, (2, document, wrong));
    }
}
