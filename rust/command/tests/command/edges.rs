//! The command `edges`: what leads to a node, and all edges.
use crate::json::is_document;
use crate::program::{example, file, folder, run, run_bytes, Done, PAIR};
use dapohiru_generators::random::Random;
use dapohiru_generators::sized::{self, FULL};
use dapohiru_generators::small;
use dapohiru_generators::zeros::filled;
use dapohiru_second::job::Job;

/// Lists edges of a job file that is standard input.
fn listed(words: &[&str], job: &str) -> Done {
    run(&[&["edges", "-"], words].concat(), job)
}

/// What is printed, and nothing is wrong.
fn prints(printed: &str) -> Done {
    (0, printed.to_string(), String::new())
}

#[test]
fn nodes_that_lead_to_a_node_are_listed_in_order() {
    let regroup = example("regroup.job");
    for (node, printed) in [
        ("1", "0\n"),
        ("2", "1\n"),
        ("3", "0\n2\n"),
        ("003", "0\n2\n"),
    ] {
        let words = ["edges", &regroup, "--into", node];
        assert_eq!(run(&words, ""), prints(printed));
    }
    assert_eq!(listed(&["--into=2"], PAIR), prints("1\n"));
    let names = example("pair-full.names");
    let words = ["--into=1", "--names", &names];
    assert_eq!(listed(&words, PAIR), prints("0 first seal\n"));
}

#[test]
fn node_that_no_edge_leads_to_is_noted() {
    let names = example("pair-full.names");
    for (words, shown) in [
        (&["--into=0"][..], "0"),
        (&["--into=0", "--names", &names], "0 first seal"),
    ] {
        let note = format!("note: no edge leads to node {shown}\n");
        assert_eq!(listed(words, PAIR), (0, String::new(), note));
    }
    let printed = "{\"job\":\"-\",\"node\":0,\"predecessors\":[]}\n";
    assert_eq!(listed(&["--into=0", "--json"], PAIR), prints(printed));
}

#[test]
fn all_edges_are_listed_where_no_node_is_asked_for() {
    assert_eq!(listed(&[], PAIR), prints("0 to 1\n1 to 2\n"));
    let names = example("pair-full.names");
    let printed = "0 first seal to 1 second seal\n1 second seal to 2 write\n";
    assert_eq!(listed(&["--names", &names], PAIR), prints(printed));
    let seal = example("seal.job");
    let note = "note: the job has no edge\n".to_string();
    assert_eq!(run(&["edges", &seal], ""), (0, String::new(), note));
}

#[test]
fn list_is_a_document() {
    for (words, fields) in [
        (&["--into=2"][..], "\"node\":2,\"predecessors\":[1]"),
        (
            &[],
            "\"edges\":[{\"from\":0,\"to\":1},{\"from\":1,\"to\":2}]",
        ),
    ] {
        let words = [words, &["--json"]].concat();
        let printed = format!("{{\"job\":\"-\",{fields}}}\n");
        assert_eq!(listed(&words, PAIR), prints(&printed));
        is_document(&printed);
        let names = file(&folder("edges-names"), "a.names", b"node 1 again\n");
        let named = "\"names\":{\"symbols\":[],\"nodes\":[{\"number\":1,\"name\":\"again\"}],\"states\":[]}";
        let words = [&words[..], &["--names", &names]].concat();
        let printed = format!("{{\"job\":\"-\",{fields},{named}}}\n");
        assert_eq!(listed(&words, PAIR), prints(&printed));
    }
}

#[test]
fn node_that_the_job_lacks_is_told_with_the_limits() {
    for node in [
        "3",
        "65536",
        "65538",
        "99999999999999999999",
        "x",
        "-1",
        "1,2",
        " 1",
    ] {
        let wrong = format!("dapohiru: edges: --into is {node}, and the nodes are 0 to 2\n");
        let words = [format!("--into={node}"), "--json".to_string()];
        for words in [&[words[0].as_str()][..], &[&words[0], &words[1]]] {
            assert_eq!(listed(words, PAIR), (2, String::new(), wrong.clone()));
        }
    }
}

#[test]
fn refused_job_is_told() {
    let wrong = run(&["plan", "-"], "J\n").2;
    for words in [&[][..], &["--into=7"], &["--add=0,7"]] {
        assert_eq!(listed(words, "J\n"), (2, String::new(), wrong.clone()));
    }
    let (status, printed, told) = listed(&["--into=7", "--json"], "J\n");
    assert_eq!((status, told), (2, wrong));
    assert!(printed.starts_with("{\"job\":\"-\",\"refused\":{\"number\":4,\"meaning\":"));
    is_document(&printed);
}

#[test]
fn edges_of_any_job_are_listed() {
    let mut random = Random::of_this_run();
    let mut jobs: Vec<_> = (0..30).map(|_| small::job(&mut random)).collect();
    jobs.push(sized::job(&mut random, FULL));
    for job in jobs {
        let file = filled(&mut random, job.file());
        let Job { nodes, edges, .. } = &job;
        for _ in 0..4 {
            let node = random.below(nodes.len() as u64);
            let from = edges.iter().filter(|(_, to)| *to == node);
            let printed: String = from.map(|(from, _)| format!("{from}\n")).collect();
            let done = run_bytes(&["edges", "-", "--into", &node.to_string()], &file);
            assert_eq!((done.0, &done.1), (0, &printed), "{}", file.escape_ascii());
            assert_eq!(done.2.is_empty(), !printed.is_empty());
        }
        let printed: String = edges
            .iter()
            .map(|(from, to)| format!("{from} to {to}\n"))
            .collect();
        assert_eq!(run_bytes(&["edges", "-"], &file).1, printed);
    }
}
