//! The command `edges`: jobs with edges added and dropped.
use crate::program::{example, file, folder, names, run, run_bytes, shell, Done, PAIR};
use dapohiru_generators::random::Random;
use dapohiru_generators::sized::{self, FULL};
use dapohiru_generators::small;
use dapohiru_generators::zeros::{filled, zero_filled};
use dapohiru_second::job::Job;
use std::collections::BTreeSet;
use std::fs;
use std::os::unix::fs::{symlink, PermissionsExt};

/// The counts of PAIR with a third edge.
const COUNTS: &str = "edges 3   event nodes 3   watched 2   passes 2\n";
/// What a refusal of an edge means.
const REFUSED: &str = "refused 22: the edge to add is there, the edge to drop is not, an end is a node that the job lacks, or 2048 edges are there already";

/// Changes the edges of a job file that is standard input.
fn changed(words: &[&str], job: &[u8]) -> Done {
    run_bytes(&[&["edges", "-"], words].concat(), job)
}

/// PAIR with a third edge, from the first seal to the write.
fn with_third() -> String {
    let job = PAIR.replace("J     3     3     3     2", "J     3     3     3     3");
    job.replace("F     0     1\n", "F     0     1\nF     0     2\n")
}

/// A job of the longest file, and an edge that it lacks.
fn full(random: &mut Random) -> (Job, (u64, u64)) {
    let job = sized::job(random, FULL);
    let mut ends = || (random.below(512), random.below(512));
    let mut edge = ends();
    while job.edges.contains(&edge) {
        edge = ends();
    }
    (job, edge)
}

#[test]
fn changed_job_is_printed_with_its_counts() {
    let wanted = (0, with_third(), COUNTS.to_string());
    assert_eq!(changed(&["--add", "0,2"], PAIR.as_bytes()), wanted);
    assert_eq!(
        changed(&["--add=00,002", "-o", "-"], PAIR.as_bytes()),
        wanted
    );
    let pair = example("pair.job");
    assert_eq!(run(&["edges", &pair, "--add=0,2"], ""), wanted);
    // the counts are those of its plan
    let (status, _, counts) = run(&["plan", "-"], &wanted.1);
    assert_eq!((status, format!("edges 3   {counts}")), (0, wanted.2));
    // a drop, and an edge from a node to itself
    let (status, printed, counts) = changed(&["--drop=0,1", "--add=2,2"], PAIR.as_bytes());
    assert_eq!(
        printed,
        PAIR.replace(
            "F     0     1\nF     1     2\n",
            "F     1     2\nF     2     2\n"
        )
    );
    assert!(
        status == 0 && counts.starts_with("edges 2   event nodes 3   "),
        "{counts}"
    );
    // none is left
    let (status, printed, _) = changed(&["--drop=0,1", "--drop=1,2"], PAIR.as_bytes());
    let (head, _) = PAIR.split_once("F ").unwrap();
    assert_eq!(
        (status, printed),
        (0, head.replace("3     2\n", "3     0\n"))
    );
}

#[test]
fn changes_are_made_in_the_order_in_which_they_are_given() {
    for words in [
        &["--add=0,2", "--drop=0,2"][..],
        &["--drop=1,2", "--add=1,2"],
        &["--add=2,0", "--drop=0,1", "--add=0,1", "--drop=2,0"],
    ] {
        let (status, printed, wrong) = changed(words, PAIR.as_bytes());
        assert_eq!((status, printed.as_str()), (0, PAIR), "{wrong}");
    }
    let (status, printed, wrong) = changed(&["--drop=0,2", "--add=0,2"], PAIR.as_bytes());
    assert_eq!((status, printed.as_str()), (2, ""));
    assert!(
        wrong.contains("\n  found --drop 0,2, and no edge "),
        "{wrong}"
    );
}

#[test]
fn refused_edge_is_named() {
    let far = "99999999999999999999,0";
    for (words, found, expected) in [
        (
            &["--add=0,1"][..],
            "--add 0,1, and the edge from node 0 to node 1 is there",
            "an edge that is not there when it is added",
        ),
        (
            &["--add=0,2", "--add=00,02"],
            "--add 00,02, and the edge from node 0 to node 2 is there",
            "an edge that is not there when it is added",
        ),
        (
            &["--drop=1,0"],
            "--drop 1,0, and no edge from node 1 to node 0 is there",
            "an edge that is there when it is dropped",
        ),
        (
            &["--drop=0,1", "--drop=0,1"],
            "--drop 0,1, and no edge from node 0 to node 1 is there",
            "an edge that is there when it is dropped",
        ),
        (&["--add=0,3"], "--add 0,3", "nodes of the job, 0 to 2"),
        (&["--drop=3,0"], "--drop 3,0", "nodes of the job, 0 to 2"),
        // 0,1 and 1,0 modulo 65536
        (
            &["--drop=0,65537"],
            "--drop 0,65537",
            "nodes of the job, 0 to 2",
        ),
        (
            &["--add=65537,0"],
            "--add 65537,0",
            "nodes of the job, 0 to 2",
        ),
        (
            &["--add", far],
            &format!("--add {far}"),
            "nodes of the job, 0 to 2",
        ),
    ] {
        let wrong = format!(
            "dapohiru: standard input: {REFUSED}\n  found {found}\n  expected: {expected}\n"
        );
        assert_eq!(changed(words, PAIR.as_bytes()), (2, String::new(), wrong));
    }
    let names = example("pair-full.names");
    let wrong = changed(&["--add=0,1", "--names", &names], PAIR.as_bytes()).2;
    let found = "--add 0,1, and the edge from node 0 first seal to node 1 second seal is there";
    assert!(wrong.contains(found), "{wrong}");
}

#[test]
fn word_that_is_no_edge_is_told() {
    for edge in [
        "0", "0,", ",1", "0,1,2", "0, 1", "a,b", "0-1", "+0,1", "-1,0", "0,1\n",
    ] {
        for option in ["--add", "--drop"] {
            let shown = edge.replace('\n', "\\n");
            let wrong = format!("dapohiru: edges: {option} is `{shown}`, and an edge is two nodes with a comma between them, such as 0,1\n");
            let words = ["edges", "/no/such/file", &format!("{option}={edge}")];
            assert_eq!(run(&words, ""), (2, String::new(), wrong));
        }
    }
}

#[test]
fn longest_job_takes_an_edge_for_an_edge_and_none_more() {
    let mut random = Random::of_this_run();
    let (mut job, (from, to)) = full(&mut random);
    let file = job.file();
    assert_eq!(file.len(), 49_914);
    let add = format!("--add={from},{to}");
    let wrong = format!(
        "dapohiru: standard input: {REFUSED}\n  found --add {from},{to}, and 2048 edges are there\n  \
         expected: 2048 edges at most, so drop one before it\n"
    );
    assert_eq!(changed(&[&add], &file), (2, String::new(), wrong));
    let place = random.place(2_048);
    let drop = format!("--drop={},{}", job.edges[place].0, job.edges[place].1);
    let (status, printed, counts) = changed(&[&drop, &add], &file);
    job.edges[place] = (from, to);
    job.edges.sort();
    assert!(printed.as_bytes() == job.file());
    assert!(
        status == 0 && counts.starts_with("edges 2048   event nodes "),
        "{counts}"
    );
}

#[test]
fn any_changes_of_any_job_give_the_file_of_its_edges() {
    let mut random = Random::of_this_run();
    for _ in 0..60 {
        let mut job = small::job(&mut random);
        let old = job.file();
        let mut edges: BTreeSet<_> = job.edges.iter().copied().collect();
        let words: Vec<_> = (0..random.between(1, 12))
            .map(|_| {
                let mut end = || random.below(job.nodes.len() as u64);
                let (from, to) = (end(), end());
                let option = match edges.insert((from, to)) {
                    true => "add",
                    false => {
                        edges.remove(&(from, to));
                        "drop"
                    }
                };
                format!("--{option}={from},{to}")
            })
            .collect();
        let words: Vec<_> = words.iter().map(String::as_str).collect();
        job.edges = edges.into_iter().collect();
        let (status, printed, wrong) = changed(&words, &old);
        let shown = old.escape_ascii();
        assert_eq!(printed.as_bytes(), job.file(), "{words:?} {shown} {wrong}");
        let counts = run(&["plan", "-"], &printed).2;
        let count = job.edges.len();
        assert_eq!((status, wrong), (0, format!("edges {count}   {counts}")));
    }
}

#[test]
fn what_a_changed_job_has_already_stands_as_it_stood() {
    let sheet = String::from_utf8(zero_filled(PAIR.into())).unwrap();
    // what is new has spaces
    let new = sheet
        .replace("3000002\nR", "3     3\nR")
        .replace("F000001", "F     0     2\nF000001");
    assert_eq!(changed(&["--add=0,2"], sheet.as_bytes()).1, new);
    let back = ["--drop=0,2", "--add=0,2", "--drop=0,2"];
    assert_eq!(
        changed(&back, new.as_bytes()).1,
        sheet.replace("3000002\nR", "3     2\nR")
    );
    let mut random = Random::of_this_run();
    for _ in 0..20 {
        let job = small::job(&mut random);
        let file = filled(&mut random, job.file());
        let Some((from, to)) = job.edges.first() else {
            continue;
        };
        let edge = format!("{from},{to}");
        let words = ["--drop", &edge, "--add", &edge];
        assert_eq!(changed(&words, &file).1.as_bytes(), file);
    }
}

#[test]
fn file_of_the_changed_job_is_written_whole_or_not_at_all() {
    let folder = folder("edges-file");
    let to = folder.join("new.job").display().to_string();
    for _ in 0..2 {
        let done = changed(&["--add=0,2", "-o", &to], PAIR.as_bytes());
        assert_eq!(done, (0, String::new(), COUNTS.to_string()));
        assert_eq!(fs::read_to_string(&to).unwrap(), with_third());
    }
    for (words, job) in [
        (&["--add=1,0", "--add=0,1"][..], PAIR),
        (&["--drop=0,2"], PAIR),
        (&["--add=0,3"], PAIR),
        (&["--add=0,2"], "J\n"),
        (&["--add=0,2", "--names=/no/such/file"], PAIR),
    ] {
        let (status, printed, _) = changed(&[words, &["-o", &to]].concat(), job.as_bytes());
        assert_eq!((status, printed.as_str()), (2, ""));
        assert_eq!(fs::read_to_string(&to).unwrap(), with_third());
        assert_eq!(names(&folder), ["new.job"]);
    }
}

#[test]
fn job_itself_may_be_replaced() {
    let folder = folder("edges-itself");
    let job = file(&folder, "pair.job", PAIR.as_bytes());
    fs::set_permissions(&job, fs::Permissions::from_mode(0o640)).unwrap();
    let link = folder.join("link").display().to_string();
    symlink("pair.job", &link).unwrap();
    let held = || fs::read_to_string(&job).unwrap();
    // a limit of no bytes for files stands for a full disk
    let script = "trap '' XFSZ; ulimit -f 0; exec \"$@\"";
    let done = shell(script, &["edges", &job, "--add=0,2", "-o", &job]);
    let wrong = format!("dapohiru: {job} is not written: File too large (os error 27)\n");
    assert_eq!(done, (2, String::new(), wrong));
    assert_eq!(run(&["edges", &job, "--drop=0,2", "-o", &job], "").0, 2);
    assert_eq!(held(), PAIR);
    for (name, words, after) in [
        (&job, "--add=0,2", with_third()),
        (&link, "--drop=0,2", PAIR.to_string()),
    ] {
        let (status, printed, _) = run(&["edges", name, words, "-o", name], "");
        assert_eq!((status, printed.as_str()), (0, ""));
        assert_eq!(held(), after);
        assert_eq!(names(&folder), ["link", "pair.job"]);
    }
    let script = "\"$1\" edges - --add=0,2 -o \"$2\" < \"$2\"";
    assert_eq!(shell(script, &[&job]).0, 0);
    assert_eq!(held(), with_third());
    let mode = fs::metadata(&job).unwrap().permissions().mode();
    assert_eq!(mode & 0o777, 0o640);
}
