//! Job files, volume files and price files with zeros before their numbers, as spreadsheets write them, in every
//! command.
use crate::program::{example, file, folder, names, run, run_bytes, PAIR};
use dapohiru_generators::random::Random;
use dapohiru_generators::zeros::{filled, zero_filled};
use std::fs;
use std::path::Path;

/// PAIR as a spreadsheet writes it.
const SHEET: &str = "\
J000003000003000003000002
R000000000000000001000000000000
R000001000000000001000000000002
R000002000001000001000000000002
P000000000001000000000001000000000000
P000001000001000000000000000000000000
P000002000001000002000000000001000000
F000000000001
F000001000002
";

/// PAIR with zeros in some of its fields, after spaces or in their place.
const MIXED: &str = "\
J     3000003    03   002
R     0     0000001     0     0
R  0001    00     1     0000002
R     2000001     1     0     2
P000000  0001   000     1     0     0
P     1     1     0     0000000     0
P     2     1 00002     0     1    00
F000000     1
F     1    02
";

#[test]
fn every_command_prints_for_a_file_with_zeros_what_it_prints_without() {
    let folder = folder("zeros");
    let [pair, sheet, mixed] = [("pair", PAIR), ("sheet", SHEET), ("mixed", MIXED)]
        .map(|(name, text)| file(&folder, &format!("{name}.job"), text.as_bytes()));
    let (plan, other) = (
        file(&folder, "a.plan", b"011\n"),
        file(&folder, "b.plan", b"001\n"),
    );
    let (symbols, events) = (example("pair.names"), "0\n1\n2\n=1\n7\n");
    let volumes = example("pair.volumes");
    for (words, input, status) in [
        (&["plan", "JOB"][..], "", 0),
        (&["list", "JOB"], "", 0),
        (&["list", "JOB", "--explain", "--names", &symbols], "", 0),
        (&["check", "JOB", &plan], "", 0),
        (&["check", "JOB", &other], "", 1),
        (&["check", "JOB", "-"], "01\n", 2),
        (&["price", "JOB", &plan, &volumes], "", 0),
        (&["price", "JOB", &plan, &volumes, "--explain"], "", 0),
        (&["price", "JOB", &plan, "-"], "V     0     0\n", 2),
        (&["watch", "--no-time", "JOB"], events, 1),
        (
            &["watch", "--no-time", "JOB", &plan, "--entry", "0"],
            events,
            1,
        ),
        (&["watch", "JOB", &plan, "--state", "1"], events, 2),
        (&["watch", "JOB", &other], "0\n1\n2\n", 0),
        (&["graph", "JOB"], "", 0),
        (&["graph", "JOB", &other], "", 0),
        (&["edges", "JOB"], "", 0),
        (&["edges", "JOB", "--into=2"], "", 0),
    ] {
        let done = |job: &str| {
            let words = words
                .iter()
                .map(|&word| if word == "JOB" { job } else { word });
            let (status, printed, wrong) = run(&words.collect::<Vec<_>>(), input);
            // an alarm has the name of the job
            (status, printed.replace(job, "JOB"), wrong)
        };
        let wanted = done(&pair);
        assert_eq!(wanted.0, status, "{words:?}");
        assert_eq!(done(&sheet), wanted, "{words:?}");
        assert_eq!(done(&mixed), wanted, "{words:?}");
    }
}

#[test]
fn volume_files_and_price_files_with_zeros_give_the_prices_of_those_without() {
    let mut random = Random::of_this_run();
    let folder = folder("zeros-prices");
    let plan = file(&folder, "a.plan", b"011\n");
    let [job, volumes, own, house] = [
        "pair.job",
        "pair.volumes",
        "association.prices",
        "house.prices",
    ]
    .map(example);
    for (words, name) in [
        (&["price", &job, &plan, "-"][..], &volumes),
        (&["price", &job, &plan, "-", "--prices", &own], &volumes),
        (&["price", &job, &plan, &volumes, "--prices", "-"], &own),
        (&["price", &job, &plan, &volumes, "--prices", "-"], &house),
    ] {
        let text = fs::read(name).unwrap();
        let sheet = zero_filled(text.clone());
        assert!(!sheet.contains(&b' '));
        for explain in [&[][..], &["--explain"]] {
            let words = [words, explain].concat();
            let wanted = run_bytes(&words, &text);
            assert_eq!((wanted.0, wanted.2.as_str()), (0, ""), "{words:?}");
            for text in [sheet.clone(), filled(&mut random, text.clone())] {
                let shown = text.escape_ascii().to_string();
                assert_eq!(run_bytes(&words, &text), wanted, "{shown}");
            }
        }
    }
}

#[test]
fn release_plans_files_with_zeros_as_those_without() {
    let folder = folder("zeros-release");
    for (name, text) in [("a", PAIR), ("b", SHEET), ("c", MIXED)] {
        file(&folder, &format!("{name}.job"), text.as_bytes());
    }
    let (status, printed, wrong) = run(&["release", folder.to_str().unwrap()], "");
    assert_eq!((status, wrong.as_str()), (0, ""));
    let counts = |row: &str| -> Vec<String> {
        let cells = row.split_whitespace().skip(1).take(3);
        cells.map(str::to_string).collect()
    };
    let rows: Vec<_> = printed.lines().skip(1).take(3).map(counts).collect();
    assert_eq!(rows, vec![["3", "2", "2"]; 3]);
    let read = |name: &str| fs::read_to_string(Path::new(&folder).join(name)).unwrap();
    assert_eq!(["a.plan", "b.plan", "c.plan"].map(read), ["011\n"; 3]);
    assert_eq!(names(&folder).len(), 6);
}

#[test]
fn refusals_and_listings_are_written_with_spaces() {
    let wrong = SHEET.replace("J000003000003", "J000017000003");
    let (status, printed, _) = run(&["list", "-"], &wrong);
    assert_eq!((status, printed.as_str()), (2, "X     5\n"));
    let (_, printed, _) = run(&["list", "-"], SHEET);
    assert_eq!(printed, include_str!("../expected/pair.txt"));
}
