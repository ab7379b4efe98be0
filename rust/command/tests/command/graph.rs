//! The command `graph`.
use crate::program::{
    example, file, folder, names, pair_with, program, run, shell, terminal, PAIR,
};
use dapohiru_generators::samples::one_seal;
use std::fs;
use std::process::Command;

#[test]
fn graph_marks_the_watched_points_entries_and_exits() {
    let printed = include_str!("../expected/pair.dot").to_string();
    let wanted = (0, printed.clone(), String::new());
    assert_eq!(run(&["graph", &example("pair.job")], ""), wanted);
    assert_eq!(run(&["graph", "-"], PAIR), wanted);
    assert_eq!(run(&["graph", "-", "-o", "-"], PAIR), wanted);
    let done = run(&["graph", &example("pair.job"), "-"], "101\n");
    let other = printed
        .replace(
            "0: symbol 0\\nunwatched\", shape=box, style=\"dashed\"",
            "A",
        )
        .replace(
            "1: symbol 0\\nwatched\", shape=box, style=\"filled,bold\", fillcolor=\"gold\"",
            "B",
        )
        .replace(
            'A',
            "0: symbol 0\\nwatched\", shape=box, style=\"filled,bold\", fillcolor=\"gold\"",
        )
        .replace(
            'B',
            "1: symbol 0\\nunwatched\", shape=box, style=\"dashed\"",
        );
    assert_ne!(other, printed);
    assert_eq!(done, (0, other, String::new()));
}

#[test]
fn calls_plain_nodes_and_after_sets_are_shown() {
    let job = pair_with(&[
        ("P     0     1     0     1", "P     0     2     5     3"),
        ("P     1     1     0", "P     1     0     0"),
    ]);
    let (status, printed, _) = run(&["graph", "-"], &job);
    assert_eq!(status, 0);
    for line in [
        "  n0 [label=\"0: call {0,2}\", shape=hexagon];\n",
        "  entry0 [label=\"entry {0,1}\", shape=plaintext];\n",
        "  n1 [label=\"1\", shape=ellipse];\n",
    ] {
        assert!(printed.contains(line), "{printed}");
    }
    let job = String::from_utf8(one_seal(4).file()).unwrap();
    let (_, printed, _) = run(&["graph", "-"], &job);
    let exit = "  exit0 [label=\"exit\\nafter {2}\", shape=plaintext];\n  n0 -> exit0;\n";
    assert!(printed.contains(exit), "{printed}");
}

#[test]
fn ways_back_are_drawn_through_two_nodes() {
    let printed = include_str!("../expected/regroup.dot").to_string();
    let done = run(&["graph", &example("regroup.job")], "");
    assert_eq!(done, (0, printed, String::new()));
    // two calls and two entries; no exit, so nothing returns
    let job = pair_with(&[
        ("P     1     1     0     0", "P     1     3     0     6"),
        (
            "P     2     1     2     0     1",
            "P     2     3     7     0     0",
        ),
    ]);
    let (status, printed, wrong) = run(&["graph", "-"], &job);
    assert_eq!((status, wrong.as_str()), (0, ""));
    let ways = "  again [label=\"comes in again\", shape=plaintext];\n\
                \x20 n1 -> again [style=\"dashed\"];\n\
                \x20 n2 -> again [style=\"dashed\"];\n\
                \x20 again -> n0 [style=\"dashed\"];\n\
                \x20 again -> n1 [style=\"dashed\"];\n\
                }\n";
    assert!(printed.ends_with(ways), "{printed}");
    for call in ["1: re-entrant call {}", "2: re-entrant call {0,1,2}"] {
        let node = format!("[label=\"{call}\", shape=hexagon, peripheries=2];\n");
        assert!(printed.contains(&node), "{printed}");
    }
    assert!(!printed.contains("returns"), "{printed}");
}

#[test]
fn pictures_are_drawn_where_dot_is_installed() {
    let folder = folder("graph-pictures");
    let job = example("pair.job");
    let installed = Command::new("dot").arg("-V").output().is_ok();
    println!("dot is installed: {installed}");
    for (option, begins) in [("--svg", &b"<?xml"[..]), ("--png", b"\x89PNG")] {
        let picture = folder.join(option).display().to_string();
        let (status, printed, wrong) = run(&["graph", &job, option, "-o", &picture], "");
        assert_eq!(printed, "");
        if installed {
            assert_eq!((status, wrong.as_str()), (0, ""));
            assert!(fs::read(&picture).unwrap().starts_with(begins));
            let done = program(&["graph", &job, option]).output().unwrap();
            assert_eq!(done.stdout, fs::read(&picture).unwrap());
        } else {
            assert_eq!(status, 2);
            assert!(wrong.contains("is not installed"), "{wrong}");
        }
    }
}

#[test]
fn picture_without_dot_is_told_and_writes_no_file() {
    let folder = folder("graph-nodot");
    let picture = folder.join("pair.svg").display().to_string();
    let done = program(&["graph", &example("pair.job"), "--svg", "-o", &picture])
        .env("PATH", "/nowhere")
        .output()
        .unwrap();
    let wrong = "dapohiru: graph: --svg needs the program dot, which is not installed (Debian's package graphviz); \
                 without --svg the graph is printed as text\n";
    assert_eq!(String::from_utf8(done.stderr).unwrap(), wrong);
    assert_eq!(done.status.code(), Some(2));
    assert!(names(&folder).is_empty());
}

#[test]
fn failing_dot_is_told_and_writes_no_file() {
    let folder = folder("graph-baddot");
    file(&folder, "dot", b"#!/bin/sh\necho out of ink >&2\nexit 3\n");
    let picture = folder.join("pair.svg").display().to_string();
    let words = [
        "graph",
        &example("pair.job"),
        "--svg",
        "-o",
        &picture,
        folder.to_str().unwrap(),
    ];
    let done = shell("chmod +x \"$7/dot\"; PATH=$7:$PATH \"${@:1:6}\"", &words);
    assert_eq!((done.0, done.1.as_str()), (2, ""));
    assert_eq!(
        done.2,
        "dapohiru: dot failed with exit status: 3: out of ink\n"
    );
    assert_eq!(names(&folder), ["dot"]);
}

#[test]
fn png_is_not_written_to_a_terminal() {
    let job = file(&folder("graph terminal"), "pair.job", PAIR.as_bytes());
    for words in [
        &["graph", &job, "--png"][..],
        &["graph", &job, "--png", "-o", "-"],
    ] {
        let (status, printed, _) = terminal(words);
        assert_eq!(status, 2);
        let wrong = "dapohiru: graph: a PNG picture is not for a terminal, take -o FILE";
        assert_eq!(printed.trim_end(), wrong);
    }
}

#[test]
fn different_plan_is_noted_and_drawn() {
    let plan = file(&folder("graph-different"), "pair.plan", b"001\n");
    let (status, printed, wrong) = run(&["graph", &example("pair.job"), &plan], "");
    assert_eq!(status, 0);
    assert_eq!(printed.matches("\\nunwatched").count(), 2);
    let note = "is different: on some walk it has other alarms than all points watched\n";
    assert_eq!(wrong, format!("note: {plan} {note}"));
}

#[test]
fn refused_plan_is_not_drawn() {
    let (status, printed, wrong) = run(&["graph", &example("pair.job"), "-"], "01\n");
    assert_eq!((status, printed.as_str()), (2, ""));
    assert!(
        wrong.starts_with("dapohiru: standard input: refused 11: "),
        "{wrong}"
    );
}
