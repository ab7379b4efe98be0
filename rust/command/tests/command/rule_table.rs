//! The tables and documents of `rule`, with names.
use crate::json::is_document;
use crate::program::{example, file, folder, narrow, run, shell};
use crate::rule::{pair, ROWS};
use std::fs;

#[test]
fn table_has_a_row_for_each_state_and_a_column_for_each_symbol() {
    let words = "\n\
                 A row for each state, a column for each symbol: the state that its event leads to.\n\
                 An event that leads to a final state raises an alarm.\n";
    let plain = "state  final  0  1  2\n    0  no     1  0  0\n    1  no     1  0  2\n    2  yes    1  0  2\n";
    let symbols = "state  final  0 seal  1 reopen  2 write\n    \
                   0  no     1       0         0\n    \
                   1  no     1       0         2\n    \
                   2  yes    1       0         2\n";
    let full = "state      final  0 seal    1 reopen  2 write\n\
                0 open     no     1 sealed  0 open    0 open\n\
                1 sealed   no     1 sealed  0 open    2 touched\n\
                2 touched  yes    1 sealed  0 open    2 touched\n";
    for (names, table) in [
        (None, plain),
        (Some("pair.names"), symbols),
        // it names nodes too
        (Some("pair-full.names"), full),
    ] {
        let names = names.map(|names| format!("--names={}", example(names)));
        let more: Vec<_> = names.iter().map(String::as_str).collect();
        let done = pair("-", &[&["--table"][..], &more].concat(), ROWS);
        assert_eq!(done, (0, format!("{table}{words}"), String::new()));
    }
}

#[test]
fn document_has_the_sizes_the_final_states_and_the_next_states() {
    let document = "{\"rows\":\"-\",\"states\":3,\"symbols\":3,\"finals\":[2],\"next\":[[1,0,0],[1,0,2],[1,0,2]]}\n";
    is_document(document);
    let done = pair("-", &["--json"], ROWS);
    assert_eq!(done, (0, document.to_string(), String::new()));
    let names = example("pair-full.names");
    let (_, printed, _) = pair("-", &["--json", "--names", &names], ROWS);
    is_document(&printed);
    // it names nodes too
    let names = "{\"symbols\":[{\"number\":0,\"name\":\"seal\"},{\"number\":1,\"name\":\"reopen\"},{\"number\":2,\"name\":\"write\"}],\
                 \"states\":[{\"number\":0,\"name\":\"open\"},{\"number\":1,\"name\":\"sealed\"},{\"number\":2,\"name\":\"touched\"}]}";
    let named = document.replace("}\n", &format!(",\"names\":{names}}}\n"));
    assert_eq!(printed, named);
}

#[test]
fn names_are_shown_so_that_they_stay_in_their_cells() {
    let folder = folder("rule-names");
    let text =
        "0 se\\al\n1 \u{202e}reopen\n2 \"wr&ite\"\nstate 0 \u{5c01}\u{5370}\nstate 1 e\u{301}\n";
    let names = file(&folder, "names", text.as_bytes());
    let (status, printed, _) = pair("-", &["--table", "--names", &names], ROWS);
    assert_eq!(status, 0);
    let table = "state   final  0 se\\\\al  1 \\u{202e}reopen  2 \"wr&ite\"\n\
                 0 \u{5c01}\u{5370}  no     1 e\u{301}       0 \u{5c01}\u{5370}            0 \u{5c01}\u{5370}\n\
                 1 e\u{301}     no     1 e\u{301}       0 \u{5c01}\u{5370}            2\n\
                 2       yes    1 e\u{301}       0 \u{5c01}\u{5370}            2\n";
    assert!(printed.starts_with(table), "{printed}");
    // names come from standard input as well
    let script = "\"$1\" rule \"$2\" --states 3 --symbols 3 --finals 2 --table --names - < \"$3\"";
    let done = shell(script, &[&example("pair.rows"), &names]);
    assert_eq!(done, (0, printed, String::new()));
}

#[test]
fn wrong_names_are_refused() {
    let folder = folder("rule-names-wrong");
    let no_name =
        "gives no name; lines are such as `symbol 0 seal`, `node 2 write` and `state 1 sealed`";
    for (text, why) in [
        (
            "state 3 x\n",
            "the states of the rule are 0 to 2, and the line names 3".to_string(),
        ),
        (
            "3 x\n",
            "the symbols of the rule are 0 to 2, and the line names 3".to_string(),
        ),
        (
            "node 512 x\n",
            "the nodes of a job are 0 to 511, and the line names 512".to_string(),
        ),
        (
            "state 0 \x1b[2J\n",
            format!("`state 0 \\u{{1b}}[2J` {no_name}"),
        ),
        ("0 a\x07\n", format!("`0 a\\u{{7}}` {no_name}")),
    ] {
        let names = file(&folder, "names", text.as_bytes());
        for words in [&[][..], &["--table"], &["--json"], &["--dot"]] {
            let done = pair("-", &[words, &["--names", &names]].concat(), ROWS);
            let wrong = format!("dapohiru: {names}: line 1: {why}\n");
            assert_eq!(done, (2, String::new(), wrong));
        }
    }
}

#[test]
fn table_comes_in_parts_on_a_narrow_terminal() {
    let folder = folder("rule-narrow");
    let rows = file(&folder, "all.rows", b"Q     0    15     0    15     7\n");
    let names: String = (0..16)
        .map(|n| format!("state {n} state of number {n}\nsymbol {n} event of number {n}\n"))
        .collect();
    let names = file(&folder, "names", names.as_bytes());
    let words = [
        "rule",
        &rows,
        "--states=16",
        "--symbols=16",
        "--finals=3",
        "--table",
        "--names",
        &names,
    ];
    let (_, whole, _) = run(&words, "");
    assert_eq!(whole.lines().count(), 20, "{whole}");
    for width in [32, 60, 80, 100] {
        let (status, printed, _) = narrow(width, &words);
        assert_eq!(status, 0);
        let (tables, _) = printed.split_once("\r\nA row for each state").unwrap();
        assert!(
            tables.lines().all(|line| line.chars().count() <= width),
            "{width}: {printed}"
        );
        // a blank line after each part
        let parts = tables.split_terminator("\r\n\r\n").count();
        assert_eq!(tables.lines().count(), 18 * parts - 1, "{printed}");
        let headings = tables.lines().filter(|line| line.starts_with("state "));
        assert_eq!(headings.count(), parts, "{printed}");
        assert!(parts > 1 && parts <= 16, "{width}: {parts}");
        for symbol in 0..16 {
            assert!(tables.contains(&format!("{symbol} ")), "{printed}");
        }
    }
    // in a file nothing is cut
    let to = folder.join("table").display().to_string();
    let (_, printed, _) = narrow(40, &[&words[..], &["-o", &to]].concat());
    assert_eq!(printed, "");
    assert_eq!(fs::read_to_string(&to).unwrap(), whole);
    // all parts have the same spaces between columns
    let (_, printed, _) = narrow(40, &words[..6]);
    let headings: Vec<_> = printed
        .lines()
        .filter(|line| line.starts_with("state"))
        .collect();
    assert_eq!(
        headings,
        [
            "state final 0 1 2 3 4 5 6 7",
            "state final 8 9 10 11 12 13 14 15",
        ]
    );
    // without names 16 symbols have room
    let (_, printed, _) = narrow(80, &words[..6]);
    assert_eq!(printed.lines().count(), 20, "{printed}");
}
