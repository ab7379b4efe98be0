//! The command `list`.
use crate::program::{example, file, folder, pair_with, run, PAIR};
use dapohiru_generators::random::Random;
use dapohiru_generators::zeros::filled;
use dapohiru_second::listing::listing;

#[test]
fn listing_is_printed_as_document_01_has_it() {
    let printed = include_str!("../expected/pair.txt").to_string();
    let wanted = (0, printed, String::new());
    assert_eq!(run(&["list", &example("pair.job")], ""), wanted);
    assert_eq!(run(&["list", "-"], PAIR), wanted);
}

#[test]
fn refused_job_is_x_and_the_number_with_its_meaning_on_standard_error() {
    let (status, printed, wrong) = run(&["list", "-"], &(PAIR.to_string() + "\n"));
    assert_eq!((status, printed.as_str()), (2, "X     9\n"));
    assert_eq!(
        wrong,
        "dapohiru: standard input: refused 9: bytes follow the last line\n  \
         line 10, column 1: found `\\n`\n  expected: the end of the file\n"
    );
    let explained = run(&["list", "-", "--explain"], &(PAIR.to_string() + "\n"));
    assert_eq!(explained, (2, String::new(), wrong));
}

#[test]
fn explained_listing_names_the_symbols() {
    let printed = include_str!("../expected/explained.txt").to_string();
    let (job, names) = (example("pair.job"), example("pair.names"));
    for words in [
        &["list", &job, "--explain", "--names", &names][..],
        &["list", "--explain", &format!("--names={names}"), &job],
    ] {
        let wanted = (0, printed.clone(), String::new());
        assert_eq!(run(words, ""), wanted);
    }
}

#[test]
fn explained_listing_says_what_calls_that_may_come_back_in_are_for() {
    let printed = include_str!("../expected/regroup.txt").to_string();
    let words = [
        "list",
        &example("regroup.job"),
        "--explain",
        "--names",
        &example("pair.names"),
    ];
    assert_eq!(run(&words, ""), (0, printed, String::new()));
    // two calls and two entries; no exit
    let job = pair_with(&[
        ("P     1     1     0     0", "P     1     3     0     6"),
        (
            "P     2     1     2     0     1",
            "P     2     3     7     0     0",
        ),
    ]);
    let (status, printed, _) = run(&["list", "-", "--explain"], &job);
    assert_eq!(status, 0);
    let said = "\nCalls that may come back in (re-entrant calls): nodes 1 and 2.\n  \
                After the word of such a call a walk may come in again at nodes 0 and 1, in the state it has.\n  \
                No node is an exit, so no walk returns.\n  \
                What is said of the points counts these steps in.\n";
    assert!(printed.contains(said), "{printed}");
}

#[test]
fn explained_listing_has_the_numbers_of_the_listing() {
    let mut random = Random::of_this_run();
    for _ in 0..40 {
        let job = dapohiru_generators::small::job(&mut random);
        let file = String::from_utf8(filled(&mut random, job.file())).unwrap();
        let (status, printed, wrong) = run(&["list", "-", "--explain"], &file);
        assert_eq!((status, wrong.as_str()), (0, ""));
        let listing = String::from_utf8(listing(&job)).unwrap();
        for (line, row) in listing.lines().zip(printed.lines().skip(1)) {
            let numbers: Vec<u64> = line[1..]
                .split_whitespace()
                .map(|number| number.parse().unwrap())
                .collect();
            let cells: Vec<_> = row.split_whitespace().collect();
            match numbers[..] {
                [node, symbol, before, classes, nop, watched] => assert_eq!(
                    cells,
                    [
                        node.to_string(),
                        symbol.to_string(),
                        members(before),
                        classes.to_string(),
                        ["no", "yes"][nop as usize].to_string(),
                        ["unwatched", "watched"][watched as usize].to_string(),
                    ]
                ),
                [points, watched, passes] => {
                    let nodes = if points == 1 { "node" } else { "nodes" };
                    let passed = if passes == 1 { "pass" } else { "passes" };
                    assert_eq!(
                        row,
                        format!(
                            "{points} event {nodes}, {watched} of them watched, {passes} {passed}"
                        )
                    )
                }
                _ => panic!("{line}"),
            }
        }
    }
}

#[test]
fn one_event_node_is_told_as_one() {
    for (name, totals) in [
        ("seal.job", "\n1 event node, 0 of them watched, 2 passes\n"),
        (
            "seal-after.job",
            "\n1 event node, 1 of them watched, 1 pass\n",
        ),
    ] {
        let (status, printed, _) = run(&["list", &example(name), "--explain"], "");
        assert_eq!(status, 0);
        assert!(printed.contains(totals), "{printed}");
    }
}

/// A set as the table shows it.
fn members(set: u64) -> String {
    let members: Vec<_> = dapohiru_second::job::members(set)
        .map(|member| member.to_string())
        .collect();
    format!("{{{}}}", members.join(","))
}

#[test]
fn wrong_names_file_is_refused_with_its_line() {
    let folder = folder("names");
    let job = example("pair.job");
    for (number, (text, why)) in [
        ("0 seal\n0 seal\n", "line 2: symbol 0 has a name already"),
        (
            "3 tear\n",
            "line 1: the symbols of the job are 0 to 2, and the line names 3",
        ),
        (
            "0 seal\nwrite\n",
            "line 2: `write` gives no name; lines are such as `symbol 0 seal`, `node 2 write` and `state 1 sealed`",
        ),
        ("0 \n", "line 1: `0 ` gives no name; lines are such as `symbol 0 seal`, `node 2 write` and `state 1 sealed`"),
        ("\n", "line 1: `` gives no name; lines are such as `symbol 0 seal`, `node 2 write` and `state 1 sealed`"),
        (
            " 0 seal\n",
            "line 1: ` 0 seal` gives no name; lines are such as `symbol 0 seal`, `node 2 write` and `state 1 sealed`",
        ),
        (
            "0 a\tb\n",
            "line 1: `0 a\\tb` gives no name; lines are such as `symbol 0 seal`, `node 2 write` and `state 1 sealed`",
        ),
        (
            "99999999999999999999999 x\n",
            "line 1: `99999999999999999999999 x` gives no name; lines are such as `symbol 0 seal`, `node 2 write` and `state 1 sealed`",
        ),
    ]
    .into_iter()
    .enumerate()
    {
        let names = file(&folder, &number.to_string(), text.as_bytes());
        let done = run(&["list", &job, "--explain", "--names", &names], "");
        assert_eq!(
            done,
            (2, String::new(), format!("dapohiru: {names}: {why}\n"))
        );
    }
}
