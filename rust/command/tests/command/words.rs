//! The words of the command line: wrong ones, and missing files.
use crate::program::{example, run};

/// The commands, in the order of the help.
pub const COMMANDS: [&str; 10] = [
    "plan", "list", "check", "price", "prices", "watch", "release", "graph", "edges", "rule",
];

/// A command's name, and what follows it in its usage: words, or for `prices`, which takes none, the line's end.
pub fn named(name: &str) -> String {
    let end = if name == "prices" { '\n' } else { ' ' };
    format!("{name}{end}")
}

#[test]
fn unknown_command_is_told_with_the_known_ones() {
    let names = COMMANDS.join(", ");
    let known = format!("the commands are {names}; `dapohiru --help` tells of each\n");
    for (words, why) in [
        (&[][..], "no command is given"),
        (&["monitor"], "monitor is no command"),
        (&["-"], "- is no command"),
        (&["--quick", "plan"], "--quick is no command"),
        (&["help", "monitor"], "monitor is no command"),
        (&["PLAN"], "PLAN is no command"),
    ] {
        let wrong = format!("dapohiru: {why}\n{known}");
        assert_eq!(run(words, ""), (2, String::new(), wrong));
    }
}

#[test]
fn wrong_words_are_told_with_the_usage() {
    let (job, rows) = (example("pair.job"), example("pair.rows"));
    for (words, why) in [
        (&["plan"][..], "JOB is missing"),
        (&["list", "--explain"], "JOB is missing"),
        (&["check"], "JOB is missing"),
        (&["check", &job], "PLAN is missing"),
        (&["price", "--explain"], "JOB is missing"),
        (&["price", &job], "PLAN is missing"),
        (&["price", &job, "b"], "VOLUMES is missing"),
        (&["price", &job, "b", "--prices=c"], "VOLUMES is missing"),
        (&["watch"], "JOB is missing"),
        (&["release"], "DIR is missing"),
        (&["graph", "--svg"], "JOB is missing"),
        (&["edges", "--into=2"], "JOB is missing"),
        (
            &["rule", "--states=3", "--symbols=3"],
            "ROWS or --expression TEXT is missing",
        ),
        (&["rule", "--expression=a"], "--symbols A is missing"),
        (&["rule", &rows, "--symbols=3"], "--states S is missing"),
        (
            &["rule", &rows, "--states=3", "--finals=2"],
            "--symbols A is missing",
        ),
        (&["plan", &job, "b"], "b is one name too many"),
        (&["list", &job, "b"], "b is one name too many"),
        (&["check", &job, "b", "c"], "c is one name too many"),
        (&["price", &job, "b", "c", "d"], "d is one name too many"),
        (&["prices", "a"], "a is one name too many"),
        (&["prices", "-"], "- is one name too many"),
        (&["watch", &job, "b", "c"], "c is one name too many"),
        (&["release", "a", "b"], "b is one name too many"),
        (&["graph", &job, "b", "c"], "c is one name too many"),
        (
            &["edges", &job, "--add", "0,1", "1,2"],
            "1,2 is one name too many",
        ),
        (&["rule", &rows, "b"], "b is one name too many"),
        (&["plan", &job, "--", "-o"], "-o is one name too many"),
        (&["plan", "--quick", &job], "--quick is no option"),
        (&["plan", &job, "--state=1"], "--state=1 is no option"),
        (&["list", &job, "-o", "x"], "-o is no option"),
        (&["price", &job, "b", "c", "--json"], "--json is no option"),
        (&["prices", "-o", "x"], "-o is no option"),
        (&["prices", "--explain"], "--explain is no option"),
        (
            &["list", &job, "--explain=yes"],
            "--explain=yes is no option",
        ),
        (&["rule", &rows, "--explain"], "--explain is no option"),
        (
            &["rule", &rows, "--states", "--symbols=3"],
            "--states is not followed by S",
        ),
        (
            &["rule", &rows, "--symbols"],
            "--symbols is not followed by A",
        ),
        (
            &["rule", &rows, "--finals", "--dot"],
            "--finals is not followed by Q,Q",
        ),
        (&["rule", &rows, "--finals", ""], "--finals: Q,Q is empty"),
        (&["rule", &rows, "--finals="], "--finals: Q,Q is empty"),
        (
            &["rule", &rows, "--finals=1", "--finals=2"],
            "--finals is given twice",
        ),
        (
            &["rule", "--symbols=3", "--expression", ""],
            "--expression: TEXT is empty",
        ),
        (
            &["rule", "--expression=", "--symbols=3"],
            "--expression: TEXT is empty",
        ),
        (
            &["rule", "--expression", "--symbols=3"],
            "--expression is not followed by TEXT",
        ),
        (
            &["rule", "--expression=a", "--expression=b"],
            "--expression is given twice",
        ),
        (&["plan", &job, "-o"], "-o is not followed by FILE"),
        (&["plan", &job, "-o", ""], "-o: the name for FILE is empty"),
        (
            &["release", &job, "-o", ""],
            "-o: the name for OUTDIR is empty",
        ),
        (&["release", &job, "-o"], "-o is not followed by OUTDIR"),
        (&["watch", &job, "--state"], "--state is not followed by Q"),
        (&["watch", &job, "--state="], "--state: Q is empty"),
        (&["watch", &job, "--entry"], "--entry is not followed by N"),
        (
            &["watch", &job, "--entry", "--state=0"],
            "--entry is not followed by N",
        ),
        (
            &["watch", &job, "--record", "--json"],
            "--record is not followed by FILE",
        ),
        (
            &["watch", &job, "--names"],
            "--names is not followed by FILE",
        ),
        (&["watch", &job, "--time"], "--time is no option"),
        (
            &["watch", &job, "--entry=0", "--entry", "0"],
            "--entry is given twice",
        ),
        (&["release", &job, "--names=x"], "--names=x is no option"),
        (&["graph", &job, "--json"], "--json is no option"),
        (&["edges", &job, "--into"], "--into is not followed by N"),
        (&["edges", &job, "--into="], "--into: N is empty"),
        (
            &["edges", &job, "--into=1", "--into=2"],
            "--into is given twice",
        ),
        (
            &["edges", &job, "--add", "--drop=0,1"],
            "--add is not followed by A,B",
        ),
        (
            &["edges", &job, "--add=0,1", "--drop"],
            "--drop is not followed by A,B",
        ),
        (&["edges", &job, "--drop="], "--drop: A,B is empty"),
        (&["edges", &job, "--add=0,1", "-o=x"], "-o=x is no option"),
        (
            &["check", &job, "b", "--names"],
            "--names is not followed by FILE",
        ),
        (
            &["graph", &job, "--names", "--svg"],
            "--names is not followed by FILE",
        ),
        (
            &["list", &job, "--names"],
            "--names is not followed by FILE",
        ),
        (
            &["price", &job, "b", "c", "--names"],
            "--names is not followed by FILE",
        ),
        (
            &["price", &job, "b", "c", "--prices"],
            "--prices is not followed by FILE",
        ),
        (
            &["price", &job, "b", "c", "--prices="],
            "--prices: the name for FILE is empty",
        ),
        // the next word is an option
        (
            &["price", &job, "b", "c", "--prices", "--explain"],
            "--prices is not followed by FILE",
        ),
        (
            &["price", "--names", "--prices", "d", &job, "b", "c"],
            "--names is not followed by FILE",
        ),
        (
            &["price", &job, "b", "c", "--prices", "--names=d"],
            "--prices is not followed by FILE",
        ),
        (
            &["price", &job, "b", "c", "--prices", "--prices", "d"],
            "--prices is not followed by FILE",
        ),
        (
            &["list", &job, "--names", "--help"],
            "--names is not followed by FILE",
        ),
        (
            &["graph", &job, "-o", "--svg"],
            "-o is not followed by FILE",
        ),
        (&["graph", &job, "-o", "-h"], "-o is not followed by FILE"),
        (
            &["plan", &job, "-o", "-o", "a"],
            "-o is not followed by FILE",
        ),
        (&["plan", &job, "-o", "a", "-o", "b"], "-o is given twice"),
        (
            &["watch", &job, "--state=0", "--state", "1"],
            "--state is given twice",
        ),
        (
            &["price", &job, "b", "c", "--prices=d", "--prices=e"],
            "--prices is given twice",
        ),
    ] {
        let (status, printed, wrong) = run(words, "");
        assert_eq!((status, printed.as_str()), (2, ""));
        let name = words[0];
        let begins = format!("dapohiru: {name}: {why}\nusage: dapohiru {}", named(name));
        assert!(wrong.starts_with(&begins), "{wrong}");
        assert!(wrong.ends_with(&format!("`dapohiru {name} --help` tells more\n")));
    }
}

#[test]
fn file_whose_name_begins_with_a_hyphen_can_be_given() {
    let (job, volumes) = (example("pair.job"), example("pair.volumes"));
    let price = ["price", &job, "-", &volumes];
    for (words, name) in [
        // joined to the option, with its folder, or where it is no option of the command
        (&["--prices=--explain"][..], "--explain"),
        (&["--prices", "./--explain"], "./--explain"),
        (&["--prices", "-x"], "-x"),
        (&["--prices", "--svg"], "--svg"),
        (&["--prices", "--explain.prices"], "--explain.prices"),
        (&["--explain", "--names", "./-h"], "./-h"),
    ] {
        let wrong = format!("dapohiru: {name}: No such file or directory (os error 2)\n");
        let words = [&price[..], words].concat();
        assert_eq!(run(&words, "011\n"), (2, String::new(), wrong), "{words:?}");
    }
}

#[test]
fn words_that_do_not_go_together_are_told() {
    let (job, jobs) = (example("pair.job"), example(""));
    let rows = example("pair.rows");
    for (words, why) in [
        (
            &["list", &job, "--names", "x"][..],
            "list: --names is only of use with --explain or --json",
        ),
        (
            &["list", "-", "--explain", "--names=-"],
            "list: JOB and the names cannot both be standard input",
        ),
        (
            &["list", &job, "--explain", "--json"],
            "list: --explain and --json are two forms, take one",
        ),
        (
            &["check", "-", "-"],
            "check: JOB and PLAN cannot both be standard input",
        ),
        (
            &["check", &job, "-", "--names=-"],
            "check: PLAN and the names cannot both be standard input",
        ),
        (
            &["check", &job, "b", "--json", "--explain"],
            "check: --explain and --json are two forms, take one",
        ),
        (
            &["graph", "-", "--names", "-"],
            "graph: JOB and the names cannot both be standard input",
        ),
        (
            &["graph", "-", "-"],
            "graph: JOB and PLAN cannot both be standard input",
        ),
        (
            &["price", &job, "b", "c", "--names", "x"],
            "price: --names is only of use with --explain",
        ),
        (
            &["price", "-", "-", "c"],
            "price: JOB and PLAN cannot both be standard input",
        ),
        (
            &["price", "-", "b", "-"],
            "price: JOB and VOLUMES cannot both be standard input",
        ),
        (
            &["price", &job, "-", "-"],
            "price: PLAN and VOLUMES cannot both be standard input",
        ),
        (
            &["price", &job, "b", "-", "--explain", "--names=-"],
            "price: VOLUMES and the names cannot both be standard input",
        ),
        (
            &["price", "-", "b", "c", "--prices", "-"],
            "price: JOB and the prices cannot both be standard input",
        ),
        (
            &["price", &job, "-", "c", "--prices=-"],
            "price: PLAN and the prices cannot both be standard input",
        ),
        (
            &["price", &job, "b", "-", "--prices=-"],
            "price: VOLUMES and the prices cannot both be standard input",
        ),
        (
            &[
                "price",
                &job,
                "b",
                "c",
                "--prices=-",
                "--explain",
                "--names=-",
            ],
            "price: the prices and the names cannot both be standard input",
        ),
        (
            &["watch", "-"],
            "watch: standard input holds the events, so JOB and PLAN are files",
        ),
        (
            &["watch", &job, "-"],
            "watch: standard input holds the events, so JOB and PLAN are files",
        ),
        (
            &["watch", &job, "--names", "-"],
            "watch: standard input holds the events, so the names are a file",
        ),
        (
            &["watch", &job, "--record=-"],
            "watch: standard input holds the events, so the record is a file",
        ),
        (
            &["release", &jobs, "-o", "-"],
            "release: -o is -, and plan files go to a folder; one named - is ./-",
        ),
        (
            &["graph", &job, "--seconds", "5"],
            "graph: --seconds is only of use with --svg or --png",
        ),
        (
            &["graph", &job, "--svg", "--png"],
            "graph: --svg and --png are two pictures, take one",
        ),
        (
            &["edges", "-", "--into=0", "--names=-"],
            "edges: JOB and the names cannot both be standard input",
        ),
        (
            &["edges", &job, "--into=0", "--drop=0,1", "--add=0,1"],
            "edges: --into lists edges and --drop changes them, take one",
        ),
        (
            &["edges", &job, "--json", "--add=0,2"],
            "edges: --json is only of use without --add and --drop",
        ),
        (
            &["edges", &job, "--into=2", "-o", "x"],
            "edges: -o is only of use with --add or --drop",
        ),
        (
            &["edges", &job, "-o", "-"],
            "edges: -o is only of use with --add or --drop",
        ),
        (
            &["rule", "-", "--states=3", "--symbols=3", "--names=-"],
            "rule: ROWS and the names cannot both be standard input",
        ),
        (
            &["rule", "--expression=-", "--symbols=3", "--names=-"],
            "rule: the expression and the names cannot both be standard input",
        ),
        (
            &["rule", &rows, "--expression=a", "--symbols=3"],
            "rule: ROWS and --expression both say a rule, take one",
        ),
        (
            &["rule", "--expression=a", "--symbols=3", "--states=3"],
            "rule: --states is only of use with ROWS; those of an expression are found by the call",
        ),
        (
            &["rule", "--expression=a", "--symbols=3", "--finals=2"],
            "rule: --finals is only of use with ROWS; those of an expression are found by the call",
        ),
        (
            &["rule", "--expression=a", "--json", "--dot"],
            "rule: --json and --dot are two forms, take one",
        ),
        (
            &["rule", &rows, "--table", "--json"],
            "rule: --table and --json are two forms, take one",
        ),
        (
            &["rule", &rows, "--svg", "--dot"],
            "rule: --dot and --svg are two forms, take one",
        ),
        (
            &["rule", &rows, "--svg", "--png"],
            "rule: --svg and --png are two pictures, take one",
        ),
        (
            &["rule", &rows, "--dot", "--seconds=3"],
            "rule: --seconds is only of use with --svg or --png",
        ),
        (
            &["rule", &rows, "--svg", "--seconds=0"],
            "rule: --seconds is `0`, and a picture may take 1 to 3600",
        ),
    ] {
        let wrong = format!("dapohiru: {why}\n");
        assert_eq!(run(words, ""), (2, String::new(), wrong));
    }
}

#[test]
fn missing_file_is_named() {
    let (job, rows) = (example("pair.job"), example("pair.rows"));
    let volumes = example("pair.volumes");
    let missing = "/no/such/file";
    let sizes = ["--states=3", "--symbols=3", "--finals=2"];
    for words in [
        &["plan", missing][..],
        &["list", missing],
        &["list", missing, "--explain"],
        &["list", &job, "--explain", "--names", missing],
        &["check", missing, missing],
        &["check", &job, missing],
        &["price", missing, missing, missing],
        &["price", &job, missing, &volumes],
        &["price", missing, "-", &volumes],
        &["price", &job, "-", missing],
        &["price", &job, "-", &volumes, "--prices", missing],
        &["price", missing, "-", &volumes, "--prices", "/"],
        &["watch", missing],
        &["watch", &job, missing],
        &["watch", &job, "--names", missing],
        &["release", missing],
        &["graph", missing],
        &["graph", &job, missing],
        &["edges", missing, "--into=0"],
        &["edges", &job, "--into=0", "--names", missing],
        &["edges", missing, "--add=0,1"],
        &[&["rule", missing][..], &sizes].concat(),
        &[&["rule", &rows, "--names", missing][..], &sizes].concat(),
        &["rule", "--expression=a", "--symbols=1", "--names", missing],
    ] {
        let wrong = format!("dapohiru: {missing}: No such file or directory (os error 2)\n");
        assert_eq!(run(words, "0\n"), (2, String::new(), wrong), "{words:?}");
    }
    let (status, _, wrong) = run(&["plan", "/"], "");
    assert_eq!(
        (status, wrong.as_str()),
        (2, "dapohiru: /: Is a directory (os error 21)\n")
    );
}
