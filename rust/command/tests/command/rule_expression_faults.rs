//! Refused expressions: the place of the fault, and what is expected there.
use crate::json::is_document;
use crate::program::{example, run, run_words, Done};
use crate::rule_expression::expressed;
use std::ffi::OsStr;
use std::os::unix::ffi::OsStrExt;

pub const REFUSED_20: &str =
    "refused 20: A is outside its limits, or the text is too long, outside the grammar or has a letter past A";
const REFUSED_21: &str = "refused 21: more than 16 states are met";

/// What is said of a refused expression.
pub fn told(what: &str, refused: &str, place: &str, expected: &str) -> Done {
    let wrong = format!("dapohiru: {what}: {refused}\n  {place}\n  expected: {expected}\n");
    (2, String::new(), wrong)
}

/// What is said of an expression of three symbols.
fn is_told(text: &str, place: &str, expected: &str) {
    let wanted = told("the expression", REFUSED_20, place, expected);
    assert_eq!(expressed(text, "3", &[]), wanted, "{text}");
}

#[test]
fn what_was_expected_in_an_expression_is_told_with_its_column() {
    let letter = "a letter, a to c";
    let due = &format!("{letter}, or `(`");
    let more = &format!("{letter}, `(`, `*`, `|` or the end");
    let inside = &format!("{letter}, `(`, `*`, `|` or `)`");
    let choices = "which stands between two choices";
    for (text, place, expected) in [
        // stars and bars with nothing beside them
        (
            "*a",
            "column 1: found `*`",
            format!("{due} before `*`, which repeats it"),
        ),
        (
            "a|*b",
            "column 3: found `*`",
            format!("{due} before `*`, which repeats it"),
        ),
        (
            "a(*b)",
            "column 3: found `*`",
            format!("{due} before `*`, which repeats it"),
        ),
        (
            "|a",
            "column 1: found `|`",
            format!("{due} before `|`, {choices}"),
        ),
        (
            "a||b",
            "column 3: found `|`",
            format!("{due} before `|`, {choices}"),
        ),
        (
            "(|a)",
            "column 2: found `|`",
            format!("{due} before `|`, {choices}"),
        ),
        (
            "a(b|)",
            "column 5: found `)`",
            format!("{due} after `|` in column 4, {choices}"),
        ),
        (
            "ab|",
            "column 4: found the end of the text",
            format!("{due} after `|` in column 3, {choices}"),
        ),
        // parentheses
        (
            "a()",
            "column 3: found `)`",
            format!("{due}: the parentheses from column 2 on hold nothing"),
        ),
        (
            ")",
            "column 1: found `)`",
            format!("{due}: no parenthesis is open here"),
        ),
        (
            "(a))b",
            "column 4: found `)`",
            format!("{more}: no parenthesis is open here"),
        ),
        (
            "a(",
            "column 3: found the end of the text",
            format!("{due}: the parenthesis of column 2 is not closed"),
        ),
        (
            "((a)b",
            "column 6: found the end of the text",
            format!("{inside}: the parenthesis of column 1 is not closed"),
        ),
        (
            "(a|(b*",
            "column 7: found the end of the text",
            format!("{inside}: the parenthesis of column 4 is not closed"),
        ),
        // letters past A, and what may stand in their place
        (
            "abcd",
            "column 4: found `d`",
            format!("{more}: there are 3 symbols"),
        ),
        (
            "(p)",
            "column 2: found `p`",
            format!("{due}: there are 3 symbols"),
        ),
        (
            "(ad)",
            "column 3: found `d`",
            format!("{inside}: there are 3 symbols"),
        ),
        (
            "d|e",
            "column 1: found `d`",
            format!("{due}: there are 3 symbols"),
        ),
        // several in a row look like a word
        (
            "deal",
            "column 1: found `d`",
            format!("{due}: there are 3 symbols, and names of symbols want --names"),
        ),
        (
            "a*bank",
            "column 5: found `n`",
            format!("{more}: there are 3 symbols, and names of symbols want --names"),
        ),
        // other characters
        (
            "seal",
            "column 1: found `s`",
            format!("{due}: names of symbols want --names"),
        ),
        (
            "A",
            "column 1: found `A`",
            format!("{due}: letters are small"),
        ),
        (
            "a b",
            "column 2: found ` `",
            format!("{more}: blanks stand only beside names, with --names"),
        ),
        ("(a+b)", "column 3: found `+`", inside.clone()),
        ("a\tb", "column 2: found `\\t`", more.clone()),
        ("a\u{e4}", "column 2: found `\u{e4}`", more.clone()),
        ("0", "column 1: found `0`", due.clone()),
        ("a\n", "column 2: found `\\n`", more.clone()),
    ] {
        is_told(text, place, &expected);
    }
    let done = expressed("b", "1", &[]);
    let expected = "the letter a, or `(`: there is 1 symbol";
    assert_eq!(
        done,
        told(
            "the expression",
            REFUSED_20,
            "column 1: found `b`",
            expected
        )
    );
    // bytes that are no text
    let words: [&[u8]; 4] = [b"rule", b"--symbols=3", b"--expression", b"a\xffb"];
    let done = run_words(&words.map(OsStr::from_bytes));
    assert_eq!(
        done,
        told(
            "the expression",
            REFUSED_20,
            "column 2: found `\\xff`",
            more
        )
    );
}

#[test]
fn length_is_told() {
    let long = "a".repeat(65);
    is_told(&long, "found 65 characters", "at most 64");
    is_told(
        &format!("{long}("),
        "column 67: found the end of the text",
        "a letter, a to c, or `(`: the parenthesis of column 66 is not closed; \
         besides, the text has 66 characters, and at most 64 are accepted",
    );
    // a character of two bytes is one
    let due = "a letter, a to c, or `(`";
    is_told(&"\u{fc}".repeat(64), "column 1: found `\u{fc}`", due);
    is_told(
        &"\u{fc}".repeat(65),
        "column 1: found `\u{fc}`",
        &format!("{due}; besides, the text has 65 characters, and at most 64 are accepted"),
    );
    // 64 characters are no fault
    let done = expressed(&format!("a{}", "*".repeat(63)), "3", &[]);
    assert_eq!((done.0, done.2.as_str()), (0, ""));
    for text in ["", "\n"] {
        let done = run(&["rule", "--expression=-", "--symbols=3"], text);
        let wanted = told(
            "standard input",
            REFUSED_20,
            "found an empty text",
            "a letter, a to c, or `(`",
        );
        assert_eq!(done, wanted);
    }
}

#[test]
fn number_of_symbols_is_told_with_its_limits() {
    let expected = "A, the number of symbols, 1 to 16";
    let names = format!("--names={}", example("pair.names"));
    for symbols in ["0", "17", "65537", "18446744073709551615"] {
        // names are of no use then
        for more in [&[][..], &[names.as_str()]] {
            let found = format!("found --symbols {symbols}");
            let wanted = told("the expression", REFUSED_20, &found, expected);
            assert_eq!(expressed("a", symbols, more), wanted);
        }
    }
    let most = "18446744073709551616";
    let refused =
        "refused before the call: the number given with the expression is outside its limits";
    let wanted = told(
        "rule",
        refused,
        &format!("found --symbols {most}"),
        expected,
    );
    assert_eq!(expressed("a", most, &[]), wanted);
    let (status, printed, wrong) = expressed("a", most, &["--json"]);
    assert_eq!((status, wrong), (2, wanted.2));
    is_document(&printed);
    assert!(
        printed.starts_with("{\"expression\":\"a\",\"refused\":{\"meaning\":\"the number given")
    );
    let wrong = "dapohiru: rule: --symbols is `x`, and A is a number, 1 to 16\n";
    assert_eq!(
        expressed("a", "x", &[]),
        (2, String::new(), wrong.to_string())
    );
}

#[test]
fn too_many_states_are_told_with_what_makes_them() {
    for text in ["a".repeat(15), "(a|b)*a(a|b)(a|b)(a|b)".to_string()] {
        let (status, printed, wrong) = expressed(&text, "2", &[]);
        assert_eq!((status, printed.as_str()), (2, ""));
        let begins = format!(
            "dapohiru: the expression: {REFUSED_21}\n  found an expression whose rule has more than 16 states\n  \
             expected: 16 at most: one for the start, and one for each set of letters"
        );
        assert!(wrong.starts_with(&begins), "{wrong}");
    }
}

#[test]
fn refused_expression_is_told_in_a_document_too() {
    let (status, printed, wrong) = expressed("a(b|)", "2", &["--json"]);
    assert_eq!(status, 2);
    assert!(wrong.starts_with(&format!("dapohiru: the expression: {REFUSED_20}\n")));
    is_document(&printed);
    let document = format!(
        "{{\"expression\":\"a(b|)\",\"refused\":{{\"number\":20,\"meaning\":\"{}\",\"columns\":[5,5],\"found\":\"`)`\",\
         \"expected\":\"a letter, a to b, or `(` after `|` in column 4, which stands between two choices\"}}}}\n",
        REFUSED_20.strip_prefix("refused 20: ").unwrap()
    );
    assert_eq!(printed, document);
}

#[test]
fn windows_line_ends_are_told() {
    let words = ["rule", "--expression=-", "--symbols=3"];
    let names = format!("--names={}", example("pair.names"));
    let hint = "\n  the file has Windows line ends, mended by `tr -d '\\r' < FILE > NEW`\n";
    for (more, text, place) in [
        (&[][..], "ab\r\n", "column 3: found `\\r`"),
        (
            &[names.as_str()],
            "seal write\r\n",
            "columns 6 to 11: found `write\\r`",
        ),
    ] {
        let (status, _, wrong) = run(&[&words[..], more].concat(), text);
        assert_eq!(status, 2);
        assert!(wrong.contains(place) && wrong.ends_with(hint), "{wrong}");
    }
    let words = [&words[..], &["--json", &names]].concat();
    let (_, printed, _) = run(&words, "seal write\r\n");
    is_document(&printed);
    assert!(
        printed.contains("\"has\":\"Windows line ends, "),
        "{printed}"
    );
}
