//! Rules of expressions: R lines, the other forms, and the job that they make.
use crate::child::with_dot;
use crate::json::is_document;
use crate::program::{example, file, folder, names, run, shell, Done, PAIR};
use std::fs;

/// Sealed, then anything but reopened, then written.
const SEALED: &str = "a(a|c)*c";
/// Its R lines.
const LINES: &str = "\
R     0     0     1     2     2
R     1     0     3     2     4
R     2     0     2     2     2
R     3     0     3     2     4
R     4     1     3     2     4
";
/// The same as rows.
const ROWS: &str = "\
Q     0     0     0     0     1
Q     0     4     1     1     2
Q     0     0     2     2     2
Q     1     1     0     0     3
Q     1     1     2     2     4
Q     2     2     0     0     2
Q     2     2     2     2     2
Q     3     4     0     0     3
Q     3     4     2     2     4
";

/// Makes the rule of an expression over so many symbols, with more words.
pub fn expressed(text: &str, symbols: &str, words: &[&str]) -> Done {
    let begin = ["rule", "--expression", text, "--symbols", symbols];
    run(&[&begin[..], words].concat(), "")
}

#[test]
fn expression_becomes_r_lines() {
    let wanted = (0, LINES.to_string(), String::new());
    assert_eq!(expressed(SEALED, "3", &[]), wanted);
    assert_eq!(expressed(SEALED, "03", &["-o", "-"]), wanted);
    // one that says the same makes other states
    let (status, printed, _) = expressed("(a(a|c)*)(((c)))", "3", &[]);
    assert_eq!((status, printed.as_str()), (0, LINES));
    let (status, printed, _) = expressed("aa*c(aa*c|c)*", "3", &[]);
    assert_eq!(status, 0);
    assert_ne!(printed, LINES);
    for (text, symbols, lines) in [
        (
            "a",
            "1",
            "R     0     0     1\nR     1     1     2\nR     2     0     2\n",
        ),
        ("a**", "1", "R     0     0     1\nR     1     1     1\n"),
        (
            "a|b",
            "2",
            "R     0     0     1     2\nR     1     1     3     3\n\
             R     2     1     3     3\nR     3     0     3     3\n",
        ),
        // a star binds before following on, and that before the bar
        (
            "ab*|b",
            "2",
            "R     0     0     1     2\nR     1     1     3     4\nR     2     1     3     3\n\
             R     3     0     3     3\nR     4     1     3     4\n",
        ),
    ] {
        let done = expressed(text, symbols, &[]);
        assert_eq!(done, (0, lines.to_string(), String::new()), "{text}");
    }
    // sixteen symbols, and sixteen states
    let (status, printed, _) = expressed("p*", "16", &[]);
    let dead = "     1".repeat(15);
    let lines = format!(
        "R     0     0{dead}     2\nR     1     0{dead}     1\nR     2     1{dead}     2\n"
    );
    assert_eq!((status, printed), (0, lines));
    let (status, printed, _) = expressed(&"a".repeat(14), "1", &[]);
    assert_eq!((status, printed.lines().count()), (0, 16));
}

#[test]
fn expression_comes_from_standard_input_as_a_line() {
    let words = ["rule", "--expression=-", "--symbols=3"];
    for text in [SEALED.to_string(), format!("{SEALED}\n")] {
        assert_eq!(run(&words, &text), (0, LINES.to_string(), String::new()));
    }
    let (_, printed, _) = run(&[&words[..], &["--json"]].concat(), &format!("{SEALED}\n"));
    assert!(printed.starts_with("{\"expression\":\"a(a|c)*c\",\"states\":5,"));
    // the names from there, the expression from a word
    let script =
        "\"$1\" rule --expression 'seal (seal|write)* write' --symbols 3 --names - < \"$2\"";
    let note = "note: the expression in letters is a(a|c)*c\n";
    let done = shell(script, &[&example("pair.names")]);
    assert_eq!(done, (0, LINES.to_string(), note.to_string()));
    // blanks without end are no expression
    let many = " ".repeat(70_000);
    let wrong = "dapohiru: standard input: longer than 65536 bytes\n";
    assert_eq!(run(&words, &many), (2, String::new(), wrong.to_string()));
}

#[test]
fn every_form_shows_the_rule_of_the_same_rows() {
    let rows = ["rule", "-", "--states=5", "--symbols=3", "--finals=4"];
    assert_eq!(run(&rows, ROWS).1, LINES);
    let names = format!("--names={}", example("pair.names"));
    for more in [&[][..], &[names.as_str()]] {
        let of_rows = |form: &str| run(&[&rows[..], &[form], more].concat(), ROWS).1;
        let expressed = |form: &str| {
            let (status, printed, wrong) = expressed(SEALED, "3", &[&[form], more].concat());
            assert_eq!((status, wrong.as_str()), (0, ""));
            printed
        };
        assert_eq!(expressed("--dot"), of_rows("--dot"));
        let start = "State 0 is where walks begin: no event has come yet.\n";
        let table = format!("expression: {SEALED}\n\n{}{start}", of_rows("--table"));
        assert_eq!(expressed("--table"), table);
        let letters = match more {
            [] => "",
            _ => ",\"letters\":\"a(a|c)*c\"",
        };
        let begin = format!("\"expression\":\"{SEALED}\"{letters}");
        let document = of_rows("--json").replace("\"rows\":\"-\"", &begin);
        is_document(&document);
        assert_eq!(expressed("--json"), document);
    }
}

#[test]
fn pictures_are_of_the_same_graph() {
    let (_, graph, _) = expressed(SEALED, "3", &["--dot"]);
    let words = ["rule", "--expression", SEALED, "--symbols=3", "--svg"];
    let dot = "#!/bin/sh\nexec cat\n";
    let done = with_dot(&folder("expression-picture"), dot, &words);
    assert_eq!(done, (0, graph, String::new()));
}

#[test]
fn printed_lines_make_a_job_that_is_planned_and_watched() {
    let folder = folder("expression-job");
    let lines = folder.join("sealed.lines").display().to_string();
    let done = expressed(SEALED, "3", &["-o", &lines]);
    assert_eq!(done, (0, String::new(), String::new()));
    assert_eq!(fs::read_to_string(&lines).unwrap(), LINES);
    let nodes = &PAIR[PAIR.find("P ").unwrap()..];
    let job = format!("J     5     3     3     2\n{LINES}{nodes}");
    assert_eq!(run(&["plan", "-"], &job).1, "011\n");
    let job = file(&folder, "sealed.job", job.as_bytes());
    // seal, seal, write
    let (status, printed, _) = run(&["watch", "--no-time", &job], "0\n1\n2\n");
    assert_eq!(status, 1);
    assert!(printed.contains("alarm at event 3 (line 3): node 2, symbol 2, state 4"));
}

#[test]
fn refused_expression_writes_no_file() {
    let folder = folder("expression-file");
    let to = folder.join("rule.lines").display().to_string();
    let (status, printed, _) = expressed("a(", "3", &["-o", &to]);
    assert_eq!((status, printed.as_str()), (2, ""));
    assert!(names(&folder).is_empty());
    // a file of the expression's name is none that is read
    let script =
        "cd \"$2\" && echo old > ab && \"$1\" rule --expression ab --symbols 2 -o ab && wc -l < ab";
    let done = shell(script, &[&folder.display().to_string()]);
    assert_eq!(done, (0, "4\n".to_string(), String::new()));
}
