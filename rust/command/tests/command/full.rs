//! Output that cannot be written: a full disk, a closed pipe, files that are no place for a plan.
use crate::program::{ended, example, file, folder, names, program, run, shell, PAIR};
use crate::watch::{alarm, BEGIN, NO_WALK};
use std::fs::{self, File};
use std::io::{pipe, Write};
use std::process::Stdio;

/// The commands that print, each with its standard input.
fn printing() -> Vec<(Vec<String>, &'static str)> {
    let (job, volumes) = (example("pair.job"), example("pair.volumes"));
    let prices = example("association.prices");
    let rows = example("pair.rows");
    let rule = ["rule", &rows, "--states=3", "--symbols=3", "--finals=2"];
    let folder = folder("full-release");
    file(&folder, "pair.job", PAIR.as_bytes());
    let release = folder.display().to_string();
    [
        (vec!["--help"], ""),
        (vec!["plan", "--help"], ""),
        (vec!["plan", &job], ""),
        (vec!["list", &job], ""),
        (vec!["list", &job, "--explain"], ""),
        (vec!["list", "-"], ""),
        (vec!["check", &job, "-"], "011\n"),
        (vec!["check", &job, "-"], "001\n"),
        (vec!["price", &job, "-", &volumes], "011\n"),
        (vec!["price", &job, "-", &volumes, "--explain"], "011\n"),
        (
            vec!["price", &job, "-", &volumes, "--prices", &prices],
            "011\n",
        ),
        (vec!["prices"], ""),
        (vec!["watch", &job], ""),
        (vec!["watch", &job], "0\n2\n2\n2\n"),
        (vec!["release", &release], ""),
        (vec!["graph", &job], ""),
        (vec!["edges", &job], ""),
        (vec!["edges", &job, "--into=2"], ""),
        (vec!["edges", &job, "--into=0", "--json"], ""),
        (vec!["edges", &job, "--add=0,2"], ""),
        (rule.to_vec(), ""),
        ([&rule[..], &["--table"]].concat(), ""),
        ([&rule[..], &["--json"]].concat(), ""),
        ([&rule[..], &["--dot"]].concat(), ""),
        (rule[..4].to_vec(), ""),
    ]
    .map(|(words, input)| (words.into_iter().map(str::to_string).collect(), input))
    .into()
}

/// Runs every command that prints to this standard output, which takes nothing.
fn nothing_is_taken(output: impl Fn() -> Stdio, why: &str) {
    for (words, input) in printing() {
        let words: Vec<_> = words.iter().map(String::as_str).collect();
        let mut command = program(&words);
        let mut child = command
            .stdin(Stdio::piped())
            .stdout(output())
            .spawn()
            .unwrap();
        drop(command);
        let _ = child.stdin.take().unwrap().write_all(input.as_bytes());
        let (status, _, wrong) = ended(child);
        assert_eq!(status, 2, "{words:?}");
        // a refusal is told before it
        let refused = words == ["list", "-"];
        let begins = match refused {
            true => "dapohiru: standard input: refused 3: ",
            false => "dapohiru: standard output",
        };
        assert!(wrong.starts_with(begins), "{words:?}: {wrong}");
        assert!(wrong.ends_with(&format!("{why}\n")), "{words:?}: {wrong}");
        assert_eq!(wrong.lines().count() > 1, refused, "{words:?}: {wrong}");
    }
}

#[test]
fn full_disk_on_standard_output_is_told() {
    nothing_is_taken(
        || {
            File::options()
                .write(true)
                .open("/dev/full")
                .unwrap()
                .into()
        },
        "standard output: No space left on device (os error 28)",
    );
}

#[test]
fn closed_pipe_is_told() {
    nothing_is_taken(
        || pipe().unwrap().1.into(),
        "standard output was closed before all was written",
    );
}

#[test]
fn reader_that_ends_early_ends_the_run() {
    let job = example("pair.job");
    let script = "set -o pipefail; (echo 0; while echo 2; do :; done) 2>/dev/null | \"$1\" watch --no-time \"$2\" | head -2";
    let (status, printed, wrong) = shell(script, &[&job]);
    let alarm = alarm(2, 2, &format!("job {job}, all points watched"));
    assert_eq!(printed, BEGIN.to_string() + &alarm);
    let closed = "dapohiru: standard output was closed before all was written\n";
    let no_walk = format!("dapohiru: standard input: line 2: event 2 (node 2): {NO_WALK}\n");
    assert_eq!(wrong, no_walk + closed);
    assert_ne!(status, 0);
}

#[test]
fn counts_that_cannot_be_written_end_with_status_2() {
    let done = shell("\"$1\" plan \"$2\" 2>/dev/full", &[&example("pair.job")]);
    assert_eq!(done, (2, "011\n".to_string(), String::new()));
}

#[test]
fn message_that_cannot_be_written_still_ends_with_status_2() {
    let done = shell("\"$1\" plan /no/such/file 2>/dev/full", &[]);
    assert_eq!(done, (2, String::new(), String::new()));
}

#[test]
fn file_on_a_full_disk_stays_as_it_was() {
    let folder = folder("full-file");
    let plan = file(&folder, "pair.plan", b"111\n");
    let new = folder.join("new.plan").display().to_string();
    // a limit of no bytes for files stands for a full disk
    let script = "trap '' XFSZ; ulimit -f 0; exec \"$@\"";
    for to in [&plan, &new] {
        let done = shell(script, &["plan", &example("pair.job"), "-o", to]);
        let wrong = format!("dapohiru: {to} is not written: File too large (os error 27)\n");
        assert_eq!(done, (2, String::new(), wrong));
        assert_eq!(fs::read_to_string(&plan).unwrap(), "111\n");
        assert_eq!(names(&folder), ["pair.plan"]);
    }
    file(&folder, "a.job", PAIR.as_bytes());
    let done = shell(script, &["release", folder.to_str().unwrap()]);
    let shown = folder.display();
    let wrong =
        format!("dapohiru: {shown}: no file can be written in it: File too large (os error 27)\n");
    assert_eq!(done, (2, String::new(), wrong));
    assert_eq!(names(&folder), ["a.job", "pair.plan"]);
}

#[test]
fn what_is_no_regular_file_is_not_replaced() {
    let folder = folder("full-places");
    let link = folder.join("link");
    std::os::unix::fs::symlink("nothing", &link).unwrap();
    for (to, why) in [
        (
            "/dev/full",
            ": it is no regular file, and only such a file is written whole",
        ),
        (
            "/dev/null",
            ": it is no regular file, and only such a file is written whole",
        ),
        (folder.to_str().unwrap(), ": it is a folder"),
        (link.to_str().unwrap(), ": it is a link to nothing"),
        (
            "/no/such/folder/plan",
            ": no file can be made beside it: No such file or directory (os error 2)",
        ),
    ] {
        let (job, rows) = (example("pair.job"), example("pair.rows"));
        for words in [
            &["plan", &job][..],
            &["graph", &job],
            &["edges", &job, "--add=0,2"],
            &["rule", &rows, "--states=3", "--symbols=3", "--finals=2"],
        ] {
            let done = run(&[words, &["-o", to]].concat(), "");
            let wrong = format!("dapohiru: {to}{why}\n");
            assert_eq!(done, (2, String::new(), wrong));
        }
    }
    assert_eq!(names(&folder), ["link"]);
}

#[test]
fn file_that_standard_output_or_error_goes_to_is_not_replaced() {
    let folder = folder("full-streams");
    let job = example("pair.job");
    let held = folder.join("held").display().to_string();
    let link = folder.join("link").display().to_string();
    std::os::unix::fs::symlink("held", &link).unwrap();
    for (script, files, stream) in [
        (
            "echo before > \"$5\"; \"$1\" \"$2\" \"$3\" -o \"$4\" >> \"$5\"",
            [&held, &link, "/dev/stdout", "/dev/fd/1"],
            "standard output",
        ),
        (
            "echo before > \"$5\"; \"$1\" \"$2\" \"$3\" -o \"$4\" 2>> \"$5\"",
            [&held, &link, "/dev/stderr", "/dev/fd/2"],
            "standard error",
        ),
    ] {
        for command in ["plan", "graph"] {
            for name in files {
                let (status, printed, wrong) = shell(script, &[command, &job, name, &held]);
                assert_eq!((status, printed.as_str()), (2, ""));
                let kept = fs::read_to_string(&held).unwrap();
                let told = format!("dapohiru: {name}: it is {stream}; leave out -o\n");
                // the message goes to standard error, which may be the file
                assert_eq!(kept + &wrong, format!("before\n{told}"));
            }
        }
    }
    assert_eq!(names(&folder), ["held", "link"]);
    // a pipe is no other
    let done = run(&["plan", &job, "-o", "/dev/stdout"], "");
    let wrong = "dapohiru: /dev/stdout: it is standard output; leave out -o\n".to_string();
    assert_eq!(done, (2, String::new(), wrong));
}

#[test]
fn plan_file_of_a_release_is_not_its_standard_output() {
    let folder = folder("full-table");
    file(&folder, "pair.job", PAIR.as_bytes());
    let plan = folder.join("pair.plan").display().to_string();
    let script = "\"$1\" release \"$2\" > \"$3\"";
    let (status, _, wrong) = shell(script, &[folder.to_str().unwrap(), &plan]);
    assert_eq!(status, 2);
    let begins = "dapohiru: 1 of 1 jobs not read or not written:\n";
    assert_eq!(wrong, format!("{begins}{plan}: it is standard output\n"));
    assert!(fs::read_to_string(&plan).unwrap().starts_with("job"));
}

#[test]
fn file_that_is_read_is_not_replaced() {
    let folder = folder("full-read");
    let job = file(&folder, "pair.job", PAIR.as_bytes());
    let plan = file(&folder, "pair.plan", b"011\n");
    let link = folder.join("link").display().to_string();
    let other = folder.join("other").display().to_string();
    std::os::unix::fs::symlink("pair.job", &link).unwrap();
    fs::hard_link(&job, &other).unwrap();
    let kept = || {
        assert_eq!(fs::read_to_string(&job).unwrap(), PAIR);
        assert_eq!(fs::read_to_string(&plan).unwrap(), "011\n");
        assert_eq!(names(&folder), ["link", "other", "pair.job", "pair.plan"]);
    };
    // what it holds is not looked at
    let rule = ["rule", &job, "--states=3", "--symbols=3", "--names", &plan];
    for (words, to) in [
        (&["plan", &job][..], &job),
        (&["plan", &job], &link),
        (&["plan", &link], &job),
        (&["plan", &job], &other),
        (&["graph", &job], &job),
        (&["graph", &job, &plan], &link),
        (&["graph", &job, &plan], &plan),
        (&["edges", &job, "--add=0,2", "--names", &plan], &plan),
        (&rule, &link),
        (&rule, &plan),
    ] {
        let words = [words, &["-o", to]].concat();
        let wrong = format!("dapohiru: {to}: -o names the file that is read\n");
        assert_eq!(run(&words, ""), (2, String::new(), wrong), "{words:?}");
        kept();
    }
    for (words, to) in [
        (&["plan", "-"][..], &job),
        (&["plan", "/dev/stdin"], &job),
        (&["graph", "-"], &job),
        (&["graph", &job, "-"], &plan),
        (&["rule", "-", "--states=3", "--symbols=3"], &job),
    ] {
        let words = [words, &["-o", to, to]].concat();
        let script = "\"${@:1:$#-1}\" < \"${@: -1}\"";
        let wrong = format!("dapohiru: {to}: -o names the file that is read\n");
        assert_eq!(
            shell(script, &words),
            (2, String::new(), wrong),
            "{words:?}"
        );
        kept();
    }
}
