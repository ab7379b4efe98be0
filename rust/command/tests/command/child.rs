//! The program that draws the pictures, and how it ends.
use crate::program::{
    ended, example, file, folder, names, run, shell, signalled, terminal, Done, PROGRAM,
};
use dapohiru_generators::large::{job_of, Order};
use dapohiru_generators::random::Random;
use dapohiru_generators::reentry::Reentry;
use dapohiru_generators::samples::one_seal;
use dapohiru_second::job::{EVENT, REENTRANT};
use std::fs;
use std::path::Path;
use std::process::{Child, Command, Stdio};
use std::thread::sleep;
use std::time::{Duration, Instant};

/// Puts a program `dot` of these lines into a folder, and gives the path to search it by.
fn path_with(folder: &Path, dot: &str) -> String {
    let dot = file(folder, "dot", dot.as_bytes());
    assert_eq!(shell("chmod +x \"$2\"", &[&dot]).0, 0);
    format!("{}:{}", folder.display(), std::env::var("PATH").unwrap())
}

/// The program with these words and this `dot`, not yet run.
fn program_with(folder: &Path, dot: &str, words: &[&str]) -> Command {
    let path = path_with(folder, dot);
    let mut command = signalled(words);
    command.env("PATH", path);
    command
}

/// Runs the program to its end with this `dot`.
pub fn with_dot(folder: &Path, dot: &str, words: &[&str]) -> Done {
    ended(program_with(folder, dot, words).spawn().unwrap())
}

/// A `dot` that writes its number to a file and does not end for long.
fn endless(folder: &Path) -> String {
    let pid = folder.join("pid").display().to_string();
    format!("#!/bin/sh\necho $$ > '{pid}.new'; mv '{pid}.new' '{pid}'; exec sleep 300\n")
}

/// Waits until something holds, for a minute at most.
fn wait(until: impl Fn() -> bool) {
    let begin = Instant::now();
    while !until() {
        assert!(begin.elapsed() < Duration::from_secs(60));
        sleep(Duration::from_millis(5));
    }
}

/// The number of the process that a file names, once it is there.
fn pid(file: &Path) -> String {
    wait(|| file.exists());
    fs::read_to_string(file).unwrap().trim().to_string()
}

/// Whether a process runs; one that has ended may be listed until somebody asks for its status.
fn runs(pid: &str) -> bool {
    let stat = fs::read_to_string(format!("/proc/{pid}/stat"));
    stat.is_ok_and(|stat| !stat.rsplit(')').next().unwrap().starts_with(" Z"))
}

/// Begins a picture with an endless `dot`, and gives the numbers of both.
fn begun(folder: &Path, dot: &str) -> (Child, String) {
    let picture = folder.join("pair.svg").display().to_string();
    let words = ["graph", &example("pair.job"), "--svg", "-o", &picture];
    let child = program_with(folder, dot, &words).spawn().unwrap();
    (child, pid(&folder.join("pid")))
}

fn send(signal: &str, child: &Child) {
    let pid = child.id().to_string();
    assert_eq!(shell("kill -$2 $3", &[signal, &pid]).0, 0);
}

#[test]
fn stop_ends_dot_too_and_writes_nothing() {
    for signal in ["INT", "TERM", "HUP"] {
        let folder = folder(&format!("child-{signal}"));
        let (child, dot) = begun(&folder, &endless(&folder));
        assert!(runs(&dot));
        send(signal, &child);
        let wrong = "dapohiru: graph: stopped; dot is ended too, and nothing is written\n";
        assert_eq!(ended(child), (2, String::new(), wrong.to_string()));
        assert!(!runs(&dot));
        assert_eq!(names(&folder), ["dot", "pid"]);
    }
}

#[test]
fn what_dot_has_started_is_ended_too() {
    let folder = folder("child-group");
    let pid = folder.join("pid").display().to_string();
    let dot =
        format!("#!/bin/sh\nsleep 300 &\necho $! > '{pid}.new'; mv '{pid}.new' '{pid}'; wait\n");
    let (child, helper) = begun(&folder, &dot);
    send("TERM", &child);
    assert_eq!(ended(child).0, 2);
    wait(|| !runs(&helper));
}

#[test]
fn dot_ends_with_a_program_that_is_killed() {
    let folder = folder("child-killed");
    let (mut child, dot) = begun(&folder, &endless(&folder));
    send("KILL", &child);
    child.wait().unwrap();
    wait(|| !runs(&dot));
    assert_eq!(names(&folder), ["dot", "pid"]);
}

#[test]
fn stop_that_the_caller_ignores_is_ignored() {
    let folder = folder("child-ignored");
    let words = ["graph", &example("pair.job"), "--svg"];
    let dot = "#!/bin/sh\ncat > /dev/null; kill -HUP $PPID; sleep 0.2; echo picture\n";
    let path = path_with(&folder, dot);
    let script = "trap '' HUP; exec \"$0\" \"$@\"";
    let child = Command::new("bash")
        .args(["-c", script, PROGRAM])
        .args(words)
        .env("PATH", path)
        .stdout(Stdio::piped())
        .stderr(Stdio::piped())
        .spawn();
    let done = ended(child.unwrap());
    assert_eq!(done, (0, "picture\n".to_string(), String::new()));
}

#[test]
fn dot_that_leaves_its_input_is_told() {
    let folder = folder("child-unread");
    // more than a pipe holds
    let names: String = (0..3)
        .map(|node| format!("node {node} {}\n", "a".repeat(80_000)))
        .collect();
    let names = file(&folder, "names", names.as_bytes());
    let words = ["graph", &example("pair.job"), "--svg", "--names", &names];
    let (status, printed, wrong) = with_dot(&folder, "#!/bin/sh\nexit 0\n", &words);
    assert_eq!((status, printed.as_str()), (2, ""));
    assert!(
        wrong.starts_with("dapohiru: dot failed with exit status: 0"),
        "{wrong}"
    );
    // and one that reads all gets all
    let (status, printed, _) = with_dot(&folder, "#!/bin/sh\nwc -c\n", &words);
    let graph = run(&["graph", &example("pair.job"), "--names", words[4]], "").1;
    assert_eq!(
        (status, printed.trim()),
        (0, graph.len().to_string().as_str())
    );
}

#[test]
fn drawing_is_said_on_a_terminal_alone() {
    let folder = folder("child-drawing");
    let dot = "#!/bin/sh\ncat > /dev/null\n";
    let words = ["graph", &example("pair.job"), "--svg"];
    assert_eq!(
        with_dot(&folder, dot, &words),
        (0, String::new(), String::new())
    );
    let path = format!("PATH={}", path_with(&folder, dot));
    let env = ["env", &path, PROGRAM];
    let (status, printed, _) = shell(
        "shift; SHELL=$BASH script -qec \"$(printf '%q ' \"$@\")\" /dev/null",
        &[&env[..], &words].concat(),
    );
    assert_eq!((status, printed.as_str()), (0, "drawing ..\r\x1b[K"));
    // what goes wrong stands in a line of its own
    let (_, printed, _) = terminal(&["graph", &example("nowhere.job"), "--svg"]);
    assert!(printed.starts_with("dapohiru: "), "{printed}");
}

#[test]
fn picture_that_takes_too_long_is_given_up() {
    let folder = folder("child-late");
    let picture = folder.join("pair.svg").display().to_string();
    let job = example("pair.job");
    let words = ["graph", &job, "--svg", "--seconds", "1", "-o", &picture];
    let wrong = "dapohiru: graph: dot has not drawn it in 1 second, and is ended; --seconds gives it longer, \
                 and without --svg the graph is printed as text\n";
    let done = with_dot(&folder, &endless(&folder), &words);
    assert_eq!(done, (2, String::new(), wrong.to_string()));
    assert!(!runs(&pid(&folder.join("pid"))));
    assert_eq!(names(&folder), ["dot", "pid"]);
    for seconds in ["0", "3601", "x", "-1", "1.5"] {
        let wrong = format!(
            "dapohiru: graph: --seconds is `{seconds}`, and a picture may take 1 to 3600\n"
        );
        let done = run(
            &["graph", &job, "--svg", &format!("--seconds={seconds}")],
            "",
        );
        assert_eq!(done, (2, String::new(), wrong));
    }
}

/// A job of so many nodes of a kind, each an entry and an exit, and so many edges.
fn dense(nodes: usize, kind: u64, edges: u64) -> String {
    let mut job = one_seal(0);
    job.nodes[0].kind = kind;
    job.nodes = vec![job.nodes[0].clone(); nodes];
    let nodes = nodes as u64;
    job.edges = (0..edges)
        .map(|edge| (edge / 16 % nodes, edge % 16 * 7 % nodes))
        .collect();
    job.edges.sort();
    String::from_utf8(job.file()).unwrap()
}

#[test]
fn graphs_of_many_arrows_are_laid_out_by_sfdp() {
    let folder = folder("child-large");
    let dot = "#!/bin/sh\ncat > /dev/null; echo \"$@\"\n";
    for (nodes, kind, edges, arrows) in [
        // two arrows for the entry and the exit of each node
        (64, EVENT, 122, 250),
        (64, EVENT, 123, 251),
        // four more for the ways back
        (40, REENTRANT, 10, 250),
        (40, REENTRANT, 11, 251),
        (100, REENTRANT, 400, 1_000),
    ] {
        let job = file(&folder, "large.job", dense(nodes, kind, edges).as_bytes());
        let done = with_dot(&folder, dot, &["graph", &job, "--png"]);
        let (words, said) = match arrows {
            ..=250 => ("-Tpng\n", String::new()),
            _ => (
                "-Tpng -Ksfdp -Goverlap=prism\n",
                format!(
                    "note: with {arrows} arrows the picture is laid out by sfdp; its nodes are not ordered by the flow\n"
                ),
            ),
        };
        assert_eq!(done, (0, words.to_string(), said));
        // as text there is nothing to lay out
        let (_, printed, wrong) = run(&["graph", &job], "");
        assert_eq!(wrong, "");
        assert_eq!(printed.matches(" -> ").count(), arrows);
    }
}

#[test]
fn graph_of_full_size_is_drawn_where_dot_is_installed() {
    let folder = folder("child-full");
    let mut random = Random::of_this_run();
    let mut job = job_of(&mut random, Order::Flow, 512, Reentry::Often);
    job.edges = (0..2_048)
        .map(|edge| (edge / 4, random.below(128) + edge % 4 * 128))
        .collect();
    let job = file(&folder, "full.job", &job.file());
    let installed = Command::new("dot").arg("-V").output().is_ok();
    println!("dot is installed: {installed}");
    if installed {
        let (status, printed, wrong) = run(&["graph", &job, "--svg"], "");
        assert_eq!((status, wrong.lines().count()), (0, 1), "{wrong}");
        assert!(printed.matches("class=\"node\"").count() >= 512);
        // few edges, and many arrows
        let job = file(&folder, "back.job", dense(100, REENTRANT, 400).as_bytes());
        let (status, printed, _) = run(&["graph", &job, "--svg"], "");
        assert_eq!(status, 0);
        assert_eq!(printed.matches("class=\"edge\"").count(), 1_000);
    }
}
