//! The command `price`.
use crate::program::{example, file, folder, pair_with, run, PAIR};
use dapohiru_generators::random::Random;
use dapohiru_generators::samples::{self, call, event, exit, reentrant, PLAIN_NODE};
use dapohiru_generators::samples::{REOPEN, SEAL, WRITE};
use dapohiru_generators::zeros::filled;
use dapohiru_generators::{prices, small, volumes};
use dapohiru_second::pricing::{self, Answer, Call};

/// The volume file in `examples/`.
const VOLUMES: &str = include_str!("../../../../examples/pair.volumes");
/// An association's price file there.
pub const OWN: &str = include_str!("../../../../examples/association.prices");
/// What is said of a plan that is different.
const DIFFERENT: &str = "is different: on some walk it has other alarms than all points watched\n";

/// A volume file of these events a day.
pub fn spelled(events: &[u64]) -> String {
    String::from_utf8(volumes::file(events)).unwrap()
}

/// A plan as its file has it.
fn line(plan: &[u8]) -> String {
    let digits: String = plan.iter().map(|byte| byte.to_string()).collect();
    digits + "\n"
}

#[test]
fn price_is_printed_in_cents_and_as_money() {
    let folder = folder("price-cents");
    let job = example("pair.job");
    for (plan, events, printed) in [
        ("011\n", [999_999, 0, 0], "0 cents a day, 0.00\n"),
        ("111\n", [0, 1, 0], "1 cent a day, 0.01\n"),
        ("111\n", [50, 0, 0], "1 cent a day, 0.01\n"),
        ("111\n", [51, 0, 0], "2 cents a day, 0.02\n"),
        // a part of a cent at each of two points
        ("101\n", [20, 999_999, 20], "1 cent a day, 0.01\n"),
        ("101", [20, 999_999, 21], "2 cents a day, 0.02\n"),
        ("011\n", [999_999, 1_000, 1_000], "50 cents a day, 0.50\n"),
        ("011\n", [999_999, 2_000, 1_966], "99 cents a day, 0.99\n"),
        ("011\n", [999_999, 2_000, 1_967], "100 cents a day, 1.00\n"),
        ("101\n", [100_000, 0, 102], "2004 cents a day, 20.04\n"),
    ] {
        let plan = file(&folder, "a.plan", plan.as_bytes());
        let done = run(&["price", &job, &plan, "-"], &spelled(&events));
        assert_eq!(done, (0, printed.to_string(), String::new()), "{events:?}");
    }
}

#[test]
fn any_one_of_the_files_is_standard_input() {
    let folder = folder("price-input");
    let (job, volumes) = (example("pair.job"), example("pair.volumes"));
    let plan = file(&folder, "pair.plan", b"011\n");
    let wanted = (0, "60 cents a day, 0.60\n".to_string(), String::new());
    assert_eq!(run(&["price", &job, &plan, &volumes], ""), wanted);
    assert_eq!(run(&["price", "-", &plan, &volumes], PAIR), wanted);
    assert_eq!(run(&["price", &job, "-", &volumes], "011\n"), wanted);
    assert_eq!(run(&["price", &job, &plan, "-"], VOLUMES), wanted);
    let words = ["price", &job, &plan, &volumes, "--prices", "-"];
    let wanted = (0, "15 cents a day, 0.15\n".to_string(), String::new());
    assert_eq!(run(&words, OWN), wanted);
    let words = ["price", &job, &plan, &volumes, "--explain", "--names", "-"];
    let (status, printed, _) = run(&words, "0 seal\n");
    assert_eq!(status, 0);
    assert!(printed.contains("\n   0  0 seal "), "{printed}");
}

#[test]
fn explained_price_shows_each_point_unrounded_and_what_the_plan_saves() {
    let words = [
        "price",
        &example("pair.job"),
        "-",
        &example("pair.volumes"),
        "--explain",
        "--names",
        &example("pair.names"),
    ];
    let printed = include_str!("../expected/price.txt").to_string();
    assert_eq!(run(&words, "011\n"), (0, printed, String::new()));
    let prices = format!("--prices={}", example("association.prices"));
    let (status, printed, wrong) = run(&[&words[..], &[&prices]].concat(), "011\n");
    // the file is named as it was given
    let printed = printed.replace(&example(""), "examples/");
    let wanted = include_str!("../expected/price-own.txt");
    assert_eq!((status, printed.as_str(), wrong.as_str()), (0, wanted, ""));
}

#[test]
fn volumes_of_plain_nodes_and_calls_do_not_count() {
    // plain, call, write, plain, seal, call that may come back in, reopen
    let folder = folder("price-kinds");
    let nodes = vec![
        PLAIN_NODE,
        call(7),
        event(WRITE),
        PLAIN_NODE,
        event(SEAL),
        reentrant(2),
        exit(event(REOPEN), 0),
    ];
    let edges = [(0, 1), (1, 2), (2, 3), (3, 4), (4, 5), (5, 6)];
    let job = file(
        &folder,
        "a.job",
        &samples::PAIR.job(1, nodes, &edges).file(),
    );
    let events = [999_999, 999_999, 1_001, 999_999, 3_000, 999_999, 7];
    let volumes = file(&folder, "a.volumes", spelled(&events).as_bytes());
    let words = ["price", &job, "-", &volumes, "--explain"];
    let printed = include_str!("../expected/price-kinds.txt").to_string();
    let note = format!("note: standard input {DIFFERENT}");
    assert_eq!(run(&words, "0010001\n"), (0, printed, note.clone()));
    let printed = "31 cents a day, 0.31\n".to_string();
    assert_eq!(run(&words[..4], "0010001\n"), (0, printed, note));
}

#[test]
fn job_without_points_costs_nothing() {
    let folder = folder("price-none");
    let job = samples::PAIR.job(1, vec![PLAIN_NODE], &[]).file();
    let job = file(&folder, "a.job", &job);
    let plan = file(&folder, "a.plan", b"0\n");
    let words = ["price", &job, &plan, "-", "--explain"];
    let printed = "\
node  symbol  volume  cents per thousand  plan  cents a day  all watched
 sum                                                  0.000        0.000

A part of a cent counts as a cent once, in the sum.
The plan costs 0 cents a day, 0.00.
With all points watched it would be 0 cents a day, 0.00.
The plan saves 0 cents a day, 0.00.
";
    let done = run(&words, "V     0999999\n");
    assert_eq!(done, (0, printed.to_string(), String::new()));
}

#[test]
fn prices_are_those_of_the_second_implementation() {
    let mut random = Random::of_this_run();
    let folder = folder("price-second");
    for _ in 0..40 {
        let job = small::job(&mut random);
        let name = file(&folder, "a.job", &filled(&mut random, job.file()));
        let events = volumes::any(&mut random, job.nodes.len());
        let volumes = file(&folder, "a.volumes", &events);
        let own = prices::any(&mut random);
        let prices = file(&folder, "a.prices", &own);
        let plans = small::plans(&mut random, &job);
        let plan = &plans[random.place(plans.len())];
        let house = ["price", &name, "-", &volumes];
        let by_own = [&house[..], &["--prices", &prices]].concat();
        for (words, own) in [(&house[..], None), (&by_own, Some(&own[..]))] {
            let price = |plan: &[u8]| {
                let call = Call {
                    file_len: job.file().len(),
                    held: Ok(&job),
                    plan,
                    volumes: &events,
                    prices: own,
                };
                match pricing::price(&call, None) {
                    Answer::Cents(cents) => cents,
                    refused => panic!("{refused:?}"),
                }
            };
            let cents = [price(plan), price(&job.all_watched())];
            let lines = job.points().len() + 7 + usize::from(own.is_some());
            is_printed(words, &line(plan), cents, lines);
        }
    }
}

/// These words print the price of a plan; explained, beside that of all points watched, in so many lines.
fn is_printed(words: &[&str], plan: &str, [cents, full]: [u64; 2], lines: usize) {
    let (status, printed, _) = run(words, plan);
    let begins = format!("{cents} cent");
    assert!(status == 0 && printed.starts_with(&begins), "{printed}");
    let (status, explained, _) = run(&[words, &["--explain"]].concat(), plan);
    assert_eq!(status, 0);
    let said = [
        "\nThe plan costs ",
        "\nWith all points watched it would be ",
        "\nThe plan saves ",
    ];
    for (said, cents) in said.into_iter().zip([cents, full, full - cents]) {
        let money = format!("{}.{:02}.\n", cents / 100, cents % 100);
        let said = format!("{said}{cents} cent");
        let (_, rest) = explained.split_once(&said).expect(&explained);
        let (_, rest) = rest.split_once(" a day, ").unwrap();
        assert!(rest.starts_with(&money), "{explained}");
    }
    assert_eq!(explained.lines().count(), lines);
}

#[test]
fn different_plan_is_noted_and_priced() {
    let words = ["price", &example("pair.job"), "-", &example("pair.volumes")];
    for (plan, printed) in [
        ("000\n", "0 cents a day, 0.00\n"),
        ("110\n", "49 cents a day, 0.49\n"),
    ] {
        let note = format!("note: standard input {DIFFERENT}");
        assert_eq!(run(&words, plan), (0, printed.to_string(), note));
    }
    // no note stands before a refusal
    let words = ["price", &example("pair.job"), "-", &example("pair.job")];
    let (status, printed, wrong) = run(&words, "000\n");
    assert_eq!((status, printed.as_str()), (2, ""));
    assert!(wrong.starts_with("dapohiru: ") && !wrong.contains("note: "));
}

#[test]
fn refusals_come_in_the_order_of_job_plan_volumes_and_prices() {
    let folder = folder("price-refused");
    let job = pair_with(&[("P     1     1     0", "P     1     0     0")]);
    let job = file(&folder, "other.job", job.as_bytes());
    let cut = file(&folder, "cut.job", &PAIR.as_bytes()[..PAIR.len() - 1]);
    let short = file(&folder, "short.plan", b"01\n");
    let plain = file(&folder, "plain.plan", b"011\n");
    let good = file(&folder, "good.plan", b"001\n");
    let end = "refused 4: the line due has not its letter, its fields or its end byte\n  \
               line 9, column 14: found the end of the file\n  expected: the end of the line (byte 10) \
               after F and 2 fields of six columns, 13 columns in all";
    let length = "refused 11: the plan has not one digit for each node\n  \
                  line 1, column 3: found the end of the plan\n  \
                  expected: a digit for each of the 3 nodes and no more";
    let digit =
        "refused 12: the plan has a digit above 1, or a 1 at a node that is no event node\n  \
                 line 1, column 2: found `1`\n  expected: 0 at node 1, which is no event node";
    let lines = "refused 16: the volume file is not exactly one V line for each node, in order\n  \
                 line 1, column 1: found the end of the file\n  \
                 expected: a line of the letter V and 2 fields of six columns, for node 0";
    let prices = "refused 28: the price file is not exactly one B line for each of the symbols 0 to 15, in order\n  \
                  line 1, column 1: found the end of the file\n  \
                  expected: a line of the letter B and 2 fields of six columns, for symbol 0";
    let empty = file(&folder, "empty.prices", b"");
    let by_own = ["--prices", &empty, "--explain"];
    for (job, plan, told, refused) in [
        (&cut, &short, cut.as_str(), end),
        (&job, &short, &short, length),
        (&job, &plain, &plain, digit),
        (&job, &good, "standard input", lines),
    ] {
        for more in [&[][..], &["--explain"], &by_own[..2], &by_own] {
            let words = [&["price", job, plan, "-"], more].concat();
            let wrong = format!("dapohiru: {told}: {refused}\n");
            assert_eq!(run(&words, ""), (2, String::new(), wrong));
        }
    }
    for more in [&by_own[..2], &by_own] {
        let volumes = example("pair.volumes");
        let words = [&["price", &job, &good, &volumes], more].concat();
        let wrong = format!("dapohiru: {empty}: {prices}\n");
        assert_eq!(run(&words, ""), (2, String::new(), wrong));
    }
    let wrong = "dapohiru: standard input: line 1, column 2: found `,`\n  \
                 expected: one line of 0 and 1, a digit for each node\n";
    let done = run(&["price", &job, "-", &example("pair.volumes")], "0,1,1\n");
    assert_eq!(done, (2, String::new(), wrong.to_string()));
}

#[test]
fn file_that_cannot_be_read_is_named() {
    let (job, volumes) = (example("pair.job"), example("pair.volumes"));
    for words in [
        &["price", "/", "-", &volumes][..],
        &["price", &job, "/", &volumes],
        &["price", &job, "-", "/"],
        &["price", &job, "-", &volumes, "--prices", "/"],
        &["price", &job, "-", &volumes, "--explain", "--names", "/"],
    ] {
        let wrong = "dapohiru: /: Is a directory (os error 21)\n".to_string();
        assert_eq!(run(words, "011\n"), (2, String::new(), wrong), "{words:?}");
    }
}

#[test]
fn largest_prices_are_those_of_512_points_of_symbol_15_and_of_the_highest_price_of_a_file() {
    let folder = folder("price-largest");
    let mut job = format!(
        "J     1    16   512     0\nR     0     0{}\n",
        "     0".repeat(16)
    );
    for node in 0..512 {
        job += &format!("P{node:>6}     1    15     1     0     0\n");
    }
    let job = file(&folder, "a.job", job.as_bytes());
    let volumes = file(&folder, "a.volumes", spelled(&[999_999; 512]).as_bytes());
    let prices = file(&folder, "a.prices", &prices::file(&[9_999; 16]));
    let plan = "1".repeat(512) + "\n";
    let house = ["price", &job, "-", &volumes];
    let own = [&house[..], &["--prices", &prices]].concat();
    for (words, rate, printed, cost, sum) in [
        (
            &house[..],
            "95",
            "48639952 cents a day, 486399.52\n",
            "94999.905",
            "48639951.360",
        ),
        (
            &own,
            "9999",
            "5119482881 cents a day, 51194828.81\n",
            "9998990.001",
            "5119482880.512",
        ),
    ] {
        assert_eq!(run(words, &plan), (0, printed.to_string(), String::new()));
        let (status, printed, wrong) = run(&[words, &["--explain"]].concat(), &plan);
        assert_eq!((status, wrong.as_str()), (0, ""));
        let rows: Vec<Vec<_>> = printed
            .lines()
            .map(|row| row.split_whitespace().collect())
            .collect();
        assert_eq!(
            rows[512],
            ["511", "15", "999999", rate, "watched", cost, cost]
        );
        assert_eq!(rows[513], ["sum", sum, sum]);
    }
}
