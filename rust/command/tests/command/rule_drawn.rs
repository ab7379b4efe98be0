//! The pictures of `rule`.
use crate::child::with_dot;
use crate::program::{example, file, folder, names, program, run, terminal};
use crate::rule::{pair, ROWS, SIZES};
use std::fs;
use std::process::Command;

/// The words for a picture of PAIR's rule.
fn words<'a>(rows: &'a str, more: &[&'a str]) -> Vec<&'a str> {
    [&["rule", rows][..], &SIZES, more].concat()
}

#[test]
fn one_arrow_stands_for_all_symbols_between_two_states() {
    let printed = include_str!("../expected/pair-rule.dot").to_string();
    let done = pair(&example("pair.rows"), &["--dot"], "");
    assert_eq!(done, (0, printed, String::new()));
    let words = [
        "rule",
        "-",
        "--states=2",
        "--symbols=16",
        "--finals=0,1",
        "--dot",
    ];
    let rows = "Q     0     0     0     4     1\nQ     0     0     5     5     0\n\
                Q     0     0     6     7     1\nQ     0     0     8    15     0\n\
                Q     1     1     0    15     1\n";
    let (status, printed, _) = run(&words, rows);
    assert_eq!(status, 0);
    let ends = "  q0 [label=\"0\", shape=doublecircle];\n  \
                q1 [label=\"1\", shape=doublecircle];\n  \
                q0 -> q0 [label=\"5, 8 to 15\"];\n  \
                q0 -> q1 [label=\"0 to 4, 6, 7\"];\n  \
                q1 -> q1 [label=\"0 to 15\"];\n}\n";
    assert!(printed.ends_with(ends), "{printed}");
}

#[test]
fn names_of_symbols_and_states_stand_in_the_labels() {
    let printed = include_str!("../expected/named-rule.dot").to_string();
    let full = example("pair-full.names");
    let done = pair("-", &["--dot", "--names", &full], ROWS);
    assert_eq!(done, (0, printed, String::new()));
    // any text stays within its label, and unnamed symbols are a range
    let text = "3 a\\n\"];b&#10;\nstate 0 \"\n";
    let names = file(&folder("rule-labels"), "names", text.as_bytes());
    let words = [
        "rule",
        "-",
        "--states=1",
        "--symbols=5",
        "--finals=0",
        "--dot",
        "--names",
        &names,
    ];
    let (_, printed, _) = run(&words, "Q     0     0     0     4     0\n");
    let ends = "  q0 [label=\"0\\n\\\"\", shape=doublecircle];\n  \
                q0 -> q0 [label=\"0 to 2\\n3 a\\\\\\\\n\\\"];b&amp;#10;\\n4\"];\n}\n";
    assert!(printed.ends_with(ends), "{printed}");
}

#[test]
fn pictures_are_drawn_where_dot_is_installed() {
    let folder = folder("rule-pictures");
    let (rows, full) = (example("pair.rows"), example("pair-full.names"));
    let installed = Command::new("dot").arg("-V").output().is_ok();
    println!("dot is installed: {installed}");
    for (option, begins) in [("--svg", &b"<?xml"[..]), ("--png", b"\x89PNG")] {
        let picture = folder.join(option).display().to_string();
        let more = [option, "--names", &full];
        let to = [&more[..], &["-o", &picture]].concat();
        let (status, printed, wrong) = run(&words(&rows, &to), "");
        assert_eq!(printed, "");
        if installed {
            assert_eq!((status, wrong.as_str()), (0, ""));
            let drawn = fs::read(&picture).unwrap();
            assert!(drawn.starts_with(begins));
            let done = program(&words(&rows, &more)).output().unwrap();
            assert_eq!(done.stdout, drawn);
        } else {
            assert_eq!(status, 2);
            assert!(wrong.contains("is not installed"), "{wrong}");
        }
    }
    if installed {
        let svg = fs::read_to_string(folder.join("--svg")).unwrap();
        assert_eq!(svg.matches("class=\"node\"").count(), 3);
        assert_eq!(svg.matches("class=\"edge\"").count(), 8);
        // the final state has two circles
        assert_eq!(svg.matches("<ellipse").count(), 4);
    }
}

#[test]
fn picture_without_dot_is_told_and_writes_no_file() {
    let folder = folder("rule-nodot");
    let picture = folder.join("pair.svg").display().to_string();
    let done = program(&words(&example("pair.rows"), &["--svg", "-o", &picture]))
        .env("PATH", "/nowhere")
        .output()
        .unwrap();
    let wrong = "dapohiru: rule: --svg needs the program dot, which is not installed (Debian's package graphviz); \
                 --dot prints the graph as text\n";
    assert_eq!(String::from_utf8(done.stderr).unwrap(), wrong);
    assert_eq!(done.status.code(), Some(2));
    assert!(names(&folder).is_empty());
}

#[test]
fn dot_that_fails_or_takes_too_long_is_told() {
    let folder = folder("rule-baddot");
    let (rows, picture) = (example("pair.rows"), folder.join("pair.svg"));
    let picture = picture.display().to_string();
    let more = ["--svg", "--seconds", "1", "-o", &picture];
    for (dot, wrong) in [
        (
            "#!/bin/sh\necho out of ink >&2\nexit 3\n",
            "dot failed with exit status: 3: out of ink",
        ),
        (
            "#!/bin/sh\nexec sleep 300\n",
            "rule: dot has not drawn it in 1 second, and is ended; --seconds gives it longer, and --dot prints the graph as text",
        ),
        (
            "#!/bin/sh\ncat > /dev/null; kill -TERM $PPID; exec sleep 300\n",
            "rule: stopped; dot is ended too, and nothing is written",
        ),
    ] {
        let done = with_dot(&folder, dot, &words(&rows, &more));
        assert_eq!(done, (2, String::new(), format!("dapohiru: {wrong}\n")));
        assert_eq!(names(&folder), ["dot"]);
    }
}

#[test]
fn png_is_not_written_to_a_terminal() {
    let (status, printed, _) = terminal(&words(&example("pair.rows"), &["--png"]));
    assert_eq!(status, 2);
    let wrong = "dapohiru: rule: a PNG picture is not for a terminal, take -o FILE";
    assert_eq!(printed.trim_end(), wrong);
}

#[test]
fn rule_of_most_arrows_is_drawn() {
    let folder = folder("rule-large");
    let row = |pair: u64| {
        let (q, a) = (pair / 16, pair % 16);
        format!("Q{q:>6}{q:>6}{a:>6}{a:>6}{a:>6}\n")
    };
    let rows: String = (0..256).map(row).collect();
    let rows = file(&folder, "large.rows", rows.as_bytes());
    let words = [
        "rule",
        &rows,
        "--states=16",
        "--symbols=16",
        "--finals=1,2,3",
        "--svg",
    ];
    let dot = "#!/bin/sh\ncat > /dev/null; echo \"$@\"\n";
    let note = "note: with 256 arrows the picture is laid out by sfdp; its nodes are not ordered by the flow\n";
    let done = with_dot(&folder, dot, &words);
    let wanted = "-Tsvg -Ksfdp -Goverlap=prism\n".to_string();
    assert_eq!(done, (0, wanted, note.to_string()));
    if Command::new("dot").arg("-V").output().is_ok() {
        let (status, printed, _) = run(&words, "");
        assert_eq!(status, 0);
        assert_eq!(printed.matches("class=\"edge\"").count(), 256);
    }
}
