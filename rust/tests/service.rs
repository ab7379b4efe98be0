//! `examples/service.c`: it is compiled as C99 and as C++, prints what docs/SERVICE.md shows, and takes the walk of the
//! job that it is given.
mod compiled;

use compiled::{built, run, top, C99, CPP};
use std::fs;
use std::path::Path;
use std::process::Command;

/// The service of the examples.
const SERVICE: &str = "examples/service.c";

#[test]
fn service_of_the_examples_prints_what_the_docs_show() {
    let files = ["examples/pair.job", "examples/pair.volumes"].map(top);
    let said = run("service", SERVICE, "cc", C99, &files).expect("cc is installed");
    let wanted = fs::read_to_string(top("rust/tests/expected/service.txt"));
    assert_eq!(said, wanted.expect("the stored output is there"));
    let docs = fs::read_to_string(top("docs/SERVICE.md")).expect("the docs are there");
    assert!(docs.contains(&said), "docs/SERVICE.md shows another output");
}

#[test]
fn service_of_the_examples_prices_by_a_price_file_that_is_given() {
    let [job, volumes, prices] = [
        "examples/pair.job",
        "examples/pair.volumes",
        "examples/association.prices",
    ]
    .map(top);
    let bytes = |path: &Path| fs::read(path).expect("the file is there");
    let cents = dapohiru::price_by(&bytes(&job), &[0, 1, 1], &bytes(&volumes), &bytes(&prices));
    let wanted = format!("\n{} cents a day\n", cents.expect("it has a price"));
    let files = [job, volumes, prices];
    let said = run("service-own-prices", SERVICE, "cc", C99, &files).expect("cc is installed");
    assert!(said.contains(&wanted), "{said}");
}

#[test]
fn service_of_the_examples_takes_the_rule_of_the_job_that_it_is_given() {
    // the same walk of other jobs: one without a final state, one with another symbol, one with a node that is no point
    let pair = fs::read_to_string(top("examples/pair.job")).expect("the job is there");
    for (name, from, to, wanted) in [
        (
            "no-final",
            "R     2     1",
            "R     2     0",
            "symbol 2: full quiet",
        ),
        (
            "reopen",
            "P     2     1     2",
            "P     2     1     1",
            "symbol 1: full quiet",
        ),
    ] {
        let said = service(name, &pair.replace(from, to)).expect("the walk is taken");
        let wanted = format!("\nnode 2, {wanted}, under the plan quiet (not told)\n");
        assert!(said.contains(&wanted), "{said}");
        assert!(said.ends_with("\nalarm totals 0 and 0\n"), "{said}");
    }
    let said = service("no-point", &pair.replace("P     1     1", "P     1     0"));
    let said = said.expect_err("the walk has a node that is no point");
    assert!(
        said.contains("service: node 1 of the walk is no point of "),
        "{said}"
    );
}

/// What the service of the examples prints for a job of three nodes; what it says where it ends with status 2.
fn service(name: &str, job: &str) -> Result<String, String> {
    let folder = Path::new(env!("CARGO_TARGET_TMPDIR"));
    let path = folder.join(format!("{name}.job"));
    fs::write(&path, job).expect("the job is written");
    let program = folder.join(format!("service-{name}"));
    built(&program, SERVICE, "cc", C99).expect("cc is installed");
    let mut service = Command::new(&program);
    let ran = service.arg(path).arg(top("examples/pair.volumes")).output();
    let ran = ran.expect("the program runs");
    let text = |bytes: &[u8]| String::from_utf8_lossy(bytes).into_owned();
    match ran.status.code() {
        Some(0) => Ok(text(&ran.stdout)),
        code => {
            assert_eq!(code, Some(2), "{}", text(&ran.stderr));
            Err(text(&ran.stderr))
        }
    }
}

/// A job whose every event alarms in state 0 and none in state 1, entered at node 0 with this entry set.
fn entered_with(entry_set: &str) -> String {
    format!(
        "\
J     2     1     3     2
R     0     1     0
R     1     0     1
P     0     1     0{entry_set:>6}     0     0
P     1     1     0     1     0     0
P     2     1     0     0     1     0
F     0     1
F     1     2
"
    )
}

#[test]
fn service_of_the_examples_begins_in_the_state_that_the_entry_admits() {
    for (name, entry_set, state, alarms) in [
        ("entry-of-0", "1", 0, 3),
        ("entry-of-1", "2", 1, 0),
        ("entry-of-1-with-zeros", "000002", 1, 0),
        ("entry-of-1-with-both", "  0002", 1, 0),
    ] {
        let said = service(name, &entered_with(entry_set)).expect("the walk is taken");
        let start = format!("\nfrom node 0, in state {state}\nnode 0, symbol 0: ");
        assert!(said.contains(&start), "{said}");
        // under the plan the alarms are those of the full record
        let totals = format!("\nalarm totals {alarms} and {alarms}\n");
        assert!(said.ends_with(&totals), "{said}");
    }
    // a longer rule stands before the entry set
    let pair = fs::read_to_string(top("examples/pair.job")).expect("the job is there");
    for (name, entry_set, state) in [("pair-in-1", 2, 1), ("pair-in-2", 4, 2)] {
        let entered = format!("P     0     1     0     {entry_set}");
        let job = pair.replace("P     0     1     0     1", &entered);
        let said = service(name, &job).expect("the walk is taken");
        let start = format!("\nfrom node 0, in state {state}\n");
        assert!(said.contains(&start), "{said}");
    }
}

#[test]
fn service_of_the_examples_refuses_a_walk_that_begins_in_no_state_or_in_several() {
    for (name, entry_set, why) in [
        ("no-entry", "0", "is no entry"),
        (
            "several-states",
            "3",
            "admits several states, and the walk begins in one of them",
        ),
    ] {
        let said = service(name, &entered_with(entry_set)).expect_err("there is no one start");
        assert!(said.starts_with("service: node 0 of "), "{said}");
        assert!(said.ends_with(&format!("{name}.job {why}\n")), "{said}");
    }
}

#[test]
fn service_of_the_examples_is_c_plus_plus_too() {
    let files = ["examples/pair.job", "examples/pair.volumes"].map(top);
    let wanted = run("service-c99", SERVICE, "cc", C99, &files).expect("cc is installed");
    match run("service-c++", SERVICE, "c++", CPP, &files) {
        Some(said) => assert_eq!(said, wanted),
        None => println!("no C++ compiler is installed"),
    }
}
