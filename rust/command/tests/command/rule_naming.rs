//! Expressions with names of symbols.
use crate::json::is_document;
use crate::program::{example, file, folder, run, Done};
use crate::rule_expression::expressed;
use crate::rule_expression_faults::{told, REFUSED_20};
use std::path::Path;

const UNKNOWN: &str = "refused before the call: a word of the expression is no symbol";
const TWO_WAYS: &str = "refused before the call: a word of the expression can be read in two ways";

/// What is noted of names of states.
const STATES: &str = "note: the names of states in the file of --names are put, by their numbers, on the states of the expression's rule\n";

/// Makes the rule of an expression with PAIR's names, with more words.
fn named(text: &str, words: &[&str]) -> Done {
    let names = format!("--names={}", example("pair.names"));
    expressed(text, "3", &[&[names.as_str()], words].concat())
}

/// The same with names of this text, for four symbols.
fn named_by(folder: &Path, names: &str, text: &str) -> Done {
    let names = format!("--names={}", file(folder, "names", names.as_bytes()));
    expressed(text, "4", &[&names])
}

/// What is expected of a word that can be read in these ways.
fn one_way(ways: &str) -> String {
    let advice = match ways.starts_with("the sign") {
        true => "give another name; where the symbol is meant, its letter will do",
        false => "take the letter instead of the name or the name instead of the letter, or give another name",
    };
    format!("what can be read in one way alone; this is {ways}: {advice}")
}

#[test]
fn names_stand_for_letters() {
    let (_, lines, _) = expressed("a(a|c)*c", "3", &[]);
    let note = "note: the expression in letters is a(a|c)*c\n";
    for text in [
        "seal (seal | write)* write",
        "seal(seal|write)*write",
        "  seal  ( seal|write ) *write ",
        "a (seal | c)* write",
        "a(a|c)* c",
    ] {
        assert_eq!(
            named(text, &[]),
            (0, lines.clone(), note.to_string()),
            "{text}"
        );
    }
    // nothing is noted of letters as they are typed
    assert_eq!(named("a(a|c)*c", &[]), (0, lines, String::new()));
}

#[test]
fn letters_are_shown_in_every_form() {
    let text = "seal (seal | write)* write";
    let note = "note: the expression in letters is a(a|c)*c\n";
    let (_, table, wrong) = named(text, &["--table"]);
    assert_eq!(wrong, "");
    let begins = "expression: seal (seal | write)* write\nin letters: a(a|c)*c\n\nstate  final  0 seal  1 reopen  2 write\n";
    assert!(table.starts_with(begins), "{table}");
    let (_, document, wrong) = named(text, &["--json"]);
    assert_eq!(wrong, "");
    is_document(&document);
    let begins =
        "{\"expression\":\"seal (seal | write)* write\",\"letters\":\"a(a|c)*c\",\"states\":5,";
    assert!(document.starts_with(begins), "{document}");
    let (_, graph, wrong) = named(text, &["--dot"]);
    assert!(graph.contains("label=\"0 seal\""), "{graph}");
    assert_eq!(wrong, note);
}

#[test]
fn unknown_word_is_told_with_its_columns_and_the_symbols() {
    let known = "a symbol by its name or its letter: seal (a), reopen (b), write (c)";
    let apart = &format!("{known}; letters stand apart where there are names, as in `a b`");
    for (text, place, expected) in [
        ("seal writ", "columns 6 to 9: found `writ`", known),
        ("sealwrite", "columns 1 to 9: found `sealwrite`", known),
        ("Seal", "columns 1 to 4: found `Seal`", known),
        (
            "seal (reopen|written)",
            "columns 14 to 20: found `written`",
            known,
        ),
        ("seal + write", "column 6: found `+`", known),
        (
            "seal\twrite",
            "columns 1 to 10: found `seal\\twrite`",
            known,
        ),
        ("seal d", "column 6: found `d`", known),
        ("ac", "columns 1 to 2: found `ac`", apart),
        (
            "seal\u{a0}write",
            "columns 1 to 10: found `seal\\u{a0}write`",
            known,
        ),
    ] {
        assert_eq!(
            named(text, &[]),
            told("rule", UNKNOWN, place, expected),
            "{text}"
        );
    }
    let (_, document, _) = named("seal writ", &["--json"]);
    is_document(&document);
    let begins = "{\"expression\":\"seal writ\",\"refused\":{\"meaning\":\"a word of the expression is no symbol\",\
                  \"columns\":[6,9],\"found\":\"`writ`\",";
    assert!(document.starts_with(begins), "{document}");
}

#[test]
fn faults_stand_in_the_columns_that_were_typed() {
    let folder = folder("naming-columns");
    for (text, place, expected) in [
        (
            "seal (",
            "column 7: found the end of the text",
            "a symbol, or `(`: the parenthesis of column 6 is not closed",
        ),
        (
            "seal | * write",
            "column 8: found `*`",
            "a symbol, or `(` before `*`, which repeats it",
        ),
        (
            "write )",
            "column 7: found `)`",
            "a symbol, `(`, `*`, `|` or the end: no parenthesis is open here",
        ),
        ("  ", "found an empty text", "a symbol, or `(`"),
    ] {
        let wanted = told("the expression", REFUSED_20, place, expected);
        assert_eq!(named(text, &[]), wanted, "{text}");
    }
    // a column for each character
    let done = named_by(
        &folder,
        "0 z\u{e4}hlen\n1 \u{5c01}\u{5370}\n",
        "z\u{e4}hlen \u{5c01}\u{5370} |",
    );
    let expected = "a symbol, or `(` after `|` in column 11, which stands between two choices";
    let place = "column 12: found the end of the text";
    assert_eq!(done, told("the expression", REFUSED_20, place, expected));
    // the letters count, and not what was typed
    let done = named(&"seal ".repeat(65), &[]);
    let place = "found 65 characters, with a letter for each name";
    assert_eq!(
        done,
        told("the expression", REFUSED_20, place, "at most 64")
    );
    let long = format!("({})*", ["seal"; 31].join("|"));
    assert_eq!(named(&long, &[]).0, 0);
    assert_eq!(named(&(long + "*"), &[]).0, 2);
    let long = format!("(seal{}){}", " ".repeat(100), "*".repeat(61));
    assert_eq!(named(&long, &[]).0, 0);
    assert_eq!(named(&(long + "*"), &[]).0, 2);
}

#[test]
fn what_can_be_read_in_two_ways_is_refused() {
    let folder = folder("naming-ways");
    for (names, text, place, ways) in [
        // the letter of another symbol
        (
            "0 seal\n2 a\n",
            "a b",
            "column 1: found `a`",
            "a, the letter of symbol 0 seal, and `a`, the name of symbol 2 (c)",
        ),
        // two symbols of one name
        (
            "0 seal\n1 seal\n",
            "c|seal",
            "columns 3 to 6: found `seal`",
            "`seal`, the name of symbol 0 (a), and `seal`, the name of symbol 1 (b)",
        ),
        // a name that begins another
        (
            "0 close\n1 again\n2 close again\n",
            "close again",
            "columns 1 to 11: found `close again`",
            "`close`, the name of symbol 0 (a), and `close again`, the name of symbol 2 (c)",
        ),
        // however many blanks there are, in the text and in the name
        (
            "0 seal\n1 seal it\n2 it\n",
            "seal   it",
            "columns 1 to 9: found `seal   it`",
            "`seal`, the name of symbol 0 (a), and `seal it`, the name of symbol 1 (b)",
        ),
        (
            "0 seal  it\n1 seal it\n",
            "c seal it",
            "columns 3 to 9: found `seal it`",
            "`seal  it`, the name of symbol 0 (a), and `seal it`, the name of symbol 1 (b)",
        ),
        (
            "0 seal\n1 seal*\n",
            "seal* d",
            "columns 1 to 5: found `seal*`",
            "`seal`, the name of symbol 0 (a), and `seal*`, the name of symbol 1 (b)",
        ),
        (
            "0 seal\n1 seal*\n",
            "seal*d",
            "columns 1 to 5: found `seal*`",
            "`seal`, the name of symbol 0 (a), and `seal*`, the name of symbol 1 (b)",
        ),
        // a name that begins with a sign
        (
            "0 x\n1 (x)\n",
            "(x)",
            "columns 1 to 3: found `(x)`",
            "the sign `(`, and `(x)`, the name of symbol 1 (b)",
        ),
        (
            "0 b c\n",
            "d b c",
            "columns 3 to 5: found `b c`",
            "`b c`, the name of symbol 0 (a), and b, the letter of symbol 1",
        ),
        (
            "1 *\n",
            "a*",
            "column 2: found `*`",
            "the sign `*`, and `*`, the name of symbol 1 (b)",
        ),
    ] {
        let done = named_by(&folder, names, text);
        assert_eq!(
            done,
            told("rule", TWO_WAYS, place, &one_way(ways)),
            "{text}"
        );
    }
}

#[test]
fn names_of_several_words_and_of_letters_are_read_where_that_is_one_way() {
    let folder = folder("naming-several");
    for (names, text, letters) in [
        (
            "0 close\n2 seal again\n",
            "close seal again | seal again *",
            "ac|c*",
        ),
        ("0 seal(ed)\n", "seal(ed)(b)", "a(b)"),
        ("0 seal  again\n", "seal again|seal    again", "a|a"),
        // a name begins another, and goes on without a blank or a sign, or stands alone
        ("0 seal\n1 sealed\n", "seal sealed", "ab"),
        ("0 seal\n1 seal it\n", "seal (seal|c)", "a(a|c)"),
        // its own letter
        ("0 a\n1 z\n", "a z", "ab"),
        // letters within names
        ("0 x c\n1 ab\n", "ab x c ab", "bab"),
        // symbols without a name
        ("node 3 a\n", "a ( b|d )", "a(b|d)"),
    ] {
        let (status, _, wrong) = named_by(&folder, names, text);
        let note = format!("note: the expression in letters is {letters}\n");
        assert_eq!((status, wrong), (0, note), "{text}");
    }
}

#[test]
fn names_of_states_are_those_of_the_rule_that_is_made() {
    let folder = folder("naming-states");
    let text = "0 seal\nstate 0 start\nstate 2 never again\nstate 4 touched\n";
    let names = file(&folder, "names", text.as_bytes());
    let words = [
        "rule",
        "--expression=seal(a|c)*c",
        "--symbols=3",
        "--table",
        "--names",
    ];
    let (status, printed, wrong) = run(&[&words[..], &[&names]].concat(), "");
    assert_eq!((status, wrong.as_str()), (0, STATES));
    assert!(
        printed.contains("\n4 touched      yes    3              2 never again  4 touched\n"),
        "{printed}"
    );
    // a state that the rule has not
    let names = file(&folder, "names", b"0 seal\nstate 5 x\n");
    let done = run(&[&words[..], &[&names]].concat(), "");
    let wrong = format!(
        "dapohiru: {names}: line 2: the states of the rule are 0 to 4, and the line names 5\n"
    );
    assert_eq!(done, (2, String::new(), wrong));
    let names = file(&folder, "names", b"3 x\n");
    let done = run(&[&words[..], &[&names]].concat(), "");
    let wrong = format!(
        "dapohiru: {names}: line 1: the symbols of the rule are 0 to 2, and the line names 3\n"
    );
    assert_eq!(done, (2, String::new(), wrong));
}

#[test]
fn names_of_states_are_noted_beside_every_form() {
    let full = format!("--names={}", example("pair-full.names"));
    let text = "seal (seal | write)* write";
    let letters = "note: the expression in letters is a(a|c)*c\n";
    for (form, note) in [
        (&[][..], letters),
        (&["--table"], ""),
        (&["--json"], ""),
        (&["--dot"], letters),
    ] {
        let (status, printed, wrong) = expressed(text, "3", &[&[full.as_str()], form].concat());
        assert_eq!((status, wrong), (0, format!("{note}{STATES}")), "{form:?}");
        // on standard output there is no note
        assert!(!printed.contains("note"), "{printed}");
        // without names of states nothing is noted of them
        let (_, lines, wrong) = named(text, form);
        assert_eq!(wrong, note);
        assert_eq!(printed == lines, form.is_empty());
    }
    let rows = [
        "rule",
        &example("pair.rows"),
        "--states=3",
        "--symbols=3",
        "--finals=2",
        "--table",
        &full,
    ];
    assert_eq!(run(&rows, "").2, "");
}
