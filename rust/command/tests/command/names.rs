//! Names for symbols, nodes and states.
use crate::program::{example, file, folder, run, shell, PAIR};

/// The names of PAIR's symbols, nodes and states.
fn full() -> String {
    example("pair-full.names")
}

#[test]
fn explained_listing_names_nodes_and_states_too() {
    let printed = include_str!("../expected/named.txt").to_string();
    let words = [
        "list",
        &example("pair.job"),
        "--explain",
        "--names",
        &full(),
    ];
    assert_eq!(run(&words, ""), (0, printed, String::new()));
}

#[test]
fn calls_that_may_come_back_in_are_named() {
    let names = file(
        &folder("names-calls"),
        "names",
        b"node 1 helper\nnode 3 done\nnode 0 begin\nstate 1 sealed\n1 reopen\n",
    );
    let words = [
        "list",
        &example("regroup.job"),
        "--explain",
        "--names",
        &names,
    ];
    let (_, printed, _) = run(&words, "");
    let said = "\nCalls that may come back in (re-entrant calls): node 1 helper.\n  \
                After the word of such a call a walk may come in again at node 0 begin, in the state it has.\n  \
                After the after word of an exit (node 3 done) it may return to node 1 helper, and the word of that call follows again.\n";
    assert!(printed.contains(said), "{printed}");
    assert!(
        printed.contains("walks arrive here in the states {0,1 sealed}.\n"),
        "{printed}"
    );
    let (_, printed, _) = run(&["graph", &example("regroup.job"), "--names", &names], "");
    let call =
        "n1 [label=\"1 helper: re-entrant call {1 reopen}\", shape=hexagon, peripheries=2];\n";
    assert!(printed.contains(call), "{printed}");
    assert!(
        printed.contains("n0 [label=\"0 begin\", shape=ellipse];\n"),
        "{printed}"
    );
}

#[test]
fn graph_names_nodes_symbols_and_states() {
    let printed = include_str!("../expected/named.dot").to_string();
    let words = ["graph", &example("pair.job"), "--names", &full()];
    assert_eq!(run(&words, ""), (0, printed, String::new()));
    // names are read from standard input as well
    let script = "\"$1\" graph \"$2\" --names - < \"$3\"";
    let done = shell(script, &[&example("pair.job"), &full()]);
    assert_eq!(done, run(&words, ""));
}

#[test]
fn price_names_nodes() {
    let words = [
        "price",
        &example("pair.job"),
        "-",
        &example("pair.volumes"),
        "--explain",
        "--names",
        &full(),
    ];
    let (status, printed, _) = run(&words, "011\n");
    assert_eq!(status, 0);
    let begins = "node           symbol   volume  cents per thousand  plan       cents a day  all watched\n\
                  0 first seal   0 seal     1205                  20  unwatched        0.000       24.100\n";
    assert!(printed.starts_with(begins), "{printed}");
}

#[test]
fn check_names_the_points_and_the_node_of_a_refusal() {
    let (job, names) = (example("pair.job"), full());
    let words = ["check", &job, "-", "--explain", "--names", &names];
    let table = "node           symbol   this plan  planned\n\
                 0 first seal   0 seal   unwatched  unwatched\n\
                 1 second seal  0 seal   unwatched  watched\n\
                 2 write        2 write  watched    watched\n\
                 Of 3 event nodes this plan watches 1, and planning's own 2.\n\
                 On some walk the alarms are others than those of all points watched; the check does not say on which.\n";
    let done = run(&words, "001\n");
    assert_eq!(done, (1, format!("different\n{table}"), String::new()));
    let (status, printed, _) = run(&words, "101\n");
    assert_eq!(status, 0);
    assert!(printed.starts_with("faithful\nnode "), "{printed}");
    let ends = "Of 3 event nodes this plan watches 2, and planning's own 2.\n\
                On every walk the alarms are those of all points watched.\n";
    assert!(printed.ends_with(ends), "{printed}");
    for words in [
        &["check", &job, "-", "--names", &names][..],
        &["graph", &job, "-", "--names", &names],
    ] {
        let (status, printed, wrong) = run(words, "021\n");
        assert_eq!((status, printed.as_str()), (2, ""));
        let ends = "found `2`\n  expected: 0 or 1 at node 1 second seal, an event node\n";
        assert!(wrong.ends_with(ends), "{wrong}");
    }
    let done = run(&["check", &job, "-", "--names", &names], "011\n");
    assert_eq!(done, (0, "faithful\n".to_string(), String::new()));
}

#[test]
fn wrong_names_are_refused_by_every_command() {
    let folder = folder("names-wrong");
    let job = file(&folder, "pair.job", PAIR.as_bytes());
    let plan = file(&folder, "pair.plan", b"011\n");
    let no_name =
        "gives no name; lines are such as `symbol 0 seal`, `node 2 write` and `state 1 sealed`";
    for (text, why) in [
        (
            "node 3 x\n",
            "line 1: the nodes of the job are 0 to 2, and the line names 3".to_string(),
        ),
        (
            "state 3 x\n",
            "line 1: the states of the job are 0 to 2, and the line names 3".to_string(),
        ),
        (
            "symbol 3 x\n",
            "line 1: the symbols of the job are 0 to 2, and the line names 3".to_string(),
        ),
        (
            "node 0 a\nnode 0 b\n",
            "line 2: node 0 has a name already".to_string(),
        ),
        (
            "0 a\nsymbol 0 b\n",
            "line 2: symbol 0 has a name already".to_string(),
        ),
        ("nodes 0 a\n", format!("line 1: `nodes 0 a` {no_name}")),
        ("node 0\n", format!("line 1: `node 0` {no_name}")),
        ("node a b\n", format!("line 1: `node a b` {no_name}")),
        ("state  b\n", format!("line 1: `state  b` {no_name}")),
        (
            "node 0 \x1b[2J\n",
            format!("line 1: `node 0 \\u{{1b}}[2J` {no_name}"),
        ),
        (
            "node 0 a\x7f",
            format!("line 1: `node 0 a\\u{{7f}}` {no_name}"),
        ),
    ] {
        let names = file(&folder, "names", text.as_bytes());
        for words in [
            &["list", &job, "--explain", "--names", &names][..],
            &["list", &job, "--json", "--names", &names],
            &["check", &job, &plan, "--names", &names],
            &["graph", &job, "--names", &names],
        ] {
            let wrong = format!("dapohiru: {names}: {why}\n");
            assert_eq!(run(words, ""), (2, String::new(), wrong));
        }
    }
    let long = file(&folder, "long", &vec![b'a'; 262_145]);
    let (_, _, wrong) = run(&["graph", &job, "--names", &long], "");
    assert_eq!(
        wrong,
        format!("dapohiru: {long}: longer than 262144 bytes\n")
    );
}
