//! The program `dapohiru-selftest`, run as anybody would.
use dapohiru_second::{slip, step};
use std::process::{Command, Output, Stdio};

/// Runs the program with these arguments.
fn run(arguments: &[&str]) -> Output {
    let mut program = Command::new(env!("CARGO_BIN_EXE_dapohiru-selftest"));
    program.args(arguments).output().expect("the program runs")
}

/// The status, and what was printed.
fn said(arguments: &[&str]) -> (Option<i32>, String) {
    let output = run(arguments);
    let text = String::from_utf8_lossy(&output.stdout).into_owned();
    (output.status.code(), text)
}

/// What is printed by a run that ends with status 0.
fn printed(arguments: &[&str]) -> String {
    let (status, text) = said(arguments);
    print!("{text}");
    assert_eq!(status, Some(0), "{arguments:?}");
    text
}

/// The count that stands before these words.
fn count(text: &str, words: &str) -> u64 {
    let line = text.lines().find(|line| line.contains(words));
    let line = line.unwrap_or_else(|| panic!("no '{words}' in\n{text}"));
    line.split_whitespace().next().unwrap().parse().unwrap()
}

/// Asks that every refusal came.
fn every_refusal_comes(text: &str) {
    for number in (1..=22).chain([28]) {
        let refused = format!("refused {number:>2}:");
        assert!(count(text, &refused) > 0, "{number}");
    }
}

#[test]
fn rounds_find_no_difference_and_every_answer_comes() {
    let text = printed(&["3", "1600"]);
    assert!(text.starts_with("seed 3: 1600 rounds, ") && text.ends_with("\nno difference\n"));
    every_refusal_comes(&text);
    for words in [
        "jobs planned",
        "jobs listed",
        "plans faithful",
        "plans different",
        "plans priced by the house table",
        "plans priced by a price file",
        "rules taken from jobs",
        "rules made from rows",
        "rules made from expressions",
        "edges added",
        "edges dropped",
        "indexes of edges made",
        "events quiet",
        "events with an alarm",
        "walks that came in again",
        "walks that returned",
        "alarms on walks",
        "events skipped",
        "a walk that needs it",
    ] {
        assert!(count(&text, words) > 0, "{words}");
    }
}

#[test]
fn same_seed_makes_the_same_rounds() {
    let without_time = |text: String| text.split_once(" calls,").unwrap().0.to_string();
    let one = without_time(said(&["5", "200"]).1);
    assert_eq!(one, without_time(said(&["5", "200"]).1));
    assert_ne!(one, without_time(said(&["6", "200"]).1));
}

/// The names of the slips that the rounds can notice.
fn every_slip() -> Vec<String> {
    let of_walks = [
        slip::Slip::of_check(),
        slip::Slip::of_planning(),
        slip::Slip::of_pricing(),
        // those of plans, volume files and the work buffer are among the ones above
        slip::Slip::PRICE_FILE.to_vec(),
        slip::Slip::RULE.to_vec(),
        slip::Slip::of_rows(),
        // those of the rule buffer are among the ones of rows
        slip::Slip::EXPRESSION_ORDER.to_vec(),
        slip::Slip::EXPRESSION_GIVEN.to_vec(),
        slip::Slip::EXPRESSION_GRAMMAR.to_vec(),
        slip::Slip::EXPRESSION_WORDS.to_vec(),
        slip::Slip::EXPRESSION_STATES.to_vec(),
        slip::Slip::of_edges(),
    ];
    let of_walks = of_walks.concat();
    let of_walks = of_walks.iter().map(|slip| format!("{slip:?}"));
    let of_step = step::Slip::ALL.iter().map(|slip| format!("{slip:?}"));
    of_walks.chain(of_step).collect()
}

#[test]
fn every_slip_of_the_second_implementation_is_a_difference_that_can_be_seen_again() {
    for slip in every_slip() {
        let (status, text) = said(&["11", "20000", "--slip", &slip]);
        assert_eq!(status, Some(1), "{slip}: {text}");
        assert!(text.contains("\ndifference in round "), "{text}");
        let again = text.lines().last().expect("a last line");
        let again = again.strip_prefix("to see it again: dapohiru-selftest ");
        let words: Vec<_> = again.expect("the means to see it").split(' ').collect();
        let (status, second) = said(&words);
        assert_eq!(status, Some(1), "{words:?}");
        let why = |text: &str| text.split("\ndifference in ").nth(1).map(str::to_string);
        assert_eq!(why(&second), why(&text));
        // without the slip the same round has no difference
        assert_eq!(said(&words[..3]).0, Some(0), "{words:?}");
        println!("{slip}: {}", words.join(" "));
    }
}

#[test]
fn soak_takes_every_event_and_finds_no_difference() {
    let text = printed(&["soak", "1000001"]);
    assert!(text.starts_with("1000001 events, ") && text.contains(" 245 batches compared"));
    assert!(text.contains(" million events per second\n") && text.ends_with("no difference\n"));
    let text = printed(&["soak", "1"]);
    assert!(text.starts_with("1 events, "), "{text}");
}

#[test]
fn calls_on_exact_allocations_find_no_difference() {
    every_refusal_comes(&printed(&["memory", "3", "3000"]));
}

#[test]
fn wrong_arguments_are_status_2_with_the_usage() {
    let wrong: [&[&str]; 23] = [
        &[],
        &["1"],
        &["1", "x"],
        &["1", "0"],
        &["soak", "0"],
        &["soak", "00"],
        &["-1", "5"],
        &["again", "1"],
        &["again", "1", "18446744073709551615"],
        &["soak"],
        &["1", "2", "--slip"],
        &["1", "2", "--slip", "Nothing"],
        &["memory", "1", "2", "--slip", "AlwaysQuiet"],
        &["soak", "5", "--slip", "AlwaysQuiet"],
        &["--slip", "AlwaysQuiet", "soak", "5"],
        &["slips", "--slip", "AlwaysQuiet"],
        &["slips", "1"],
        &["--version", "1"],
        &["help", "1"],
        &["memory", "1"],
        &["soak", "1", "2"],
        &["+1", "5"],
        &["1", "18446744073709551616"],
    ];
    for arguments in wrong {
        let output = run(arguments);
        let text = String::from_utf8_lossy(&output.stderr).into_owned();
        assert_eq!(output.status.code(), Some(2), "{arguments:?}");
        assert!(text.contains("usage: dapohiru-selftest"), "{text}");
        assert!(output.stdout.is_empty());
    }
    for (arguments, why) in [
        (&["1", "0"][..], "N is a number from 1 on, and '0' is none"),
        (
            &["soak", "0"],
            "EVENTS is a number from 1 on, and '0' is none",
        ),
        (
            &["soak", "x"],
            "EVENTS is a decimal number, and 'x' is none",
        ),
        (
            &["1", "18446744073709551616"],
            "N is a number below 2^64, and '18446744073709551616' is none",
        ),
        (
            &["\u{1b}[31m", "1"],
            "SEED is a decimal number, and '\\u{1b}[31m' is none",
        ),
        (&["help", "x"], "nothing follows help, and 'x' does"),
        (&["slips", "x"], "nothing follows slips, and 'x' does"),
        (&["slips", "1", "2"], "nothing follows slips, and '1' does"),
        (
            &["--version", "\u{1b}x"],
            "nothing follows --version, and '\\u{1b}x' does",
        ),
        (&["-V", "x"], "nothing follows -V, and 'x' does"),
        (
            &["again", "7"],
            "again goes with SEED and NUMBER, and '7' follows it",
        ),
        (
            &["again"],
            "again goes with SEED and NUMBER, and nothing follows it",
        ),
        (
            &["again", "7", "8", "9"],
            "again goes with SEED and NUMBER, and '7 8 9' follows it",
        ),
        (
            &["memory", "7"],
            "memory goes with SEED and N, and '7' follows it",
        ),
        (&["soak"], "soak goes with EVENTS, and nothing follows it"),
        (
            &["soak", "1", "2"],
            "soak goes with EVENTS, and '1 2' follows it",
        ),
        (
            &["1", "2", "--slip", "Nothing"],
            "'Nothing' is no slip; `dapohiru-selftest slips` lists them",
        ),
        (
            &["memory", "1", "2", "--slip", "AlwaysQuiet"],
            "--slip goes with SEED N and again only",
        ),
        (
            &["--slip", "AlwaysQuiet", "soak", "5"],
            "--slip goes with SEED N and again only",
        ),
    ] {
        let text = String::from_utf8_lossy(&run(arguments).stderr).into_owned();
        let begins = format!("dapohiru-selftest: {why}\n");
        assert!(text.starts_with(&begins), "{text}");
    }
}

#[test]
fn help_tells_of_every_word_and_is_printed_wherever_it_is_asked_for() {
    let text = printed(&["--help"]);
    assert!(text.starts_with("usage: dapohiru-selftest SEED N"));
    for word in [
        "again",
        "memory",
        "soak",
        "slips",
        "--slip NAME",
        "--version",
    ] {
        let tells = |line: &str| line.starts_with(word) || line.contains(&format!("{word} "));
        assert!(text.lines().skip(6).any(tells), "{word}");
    }
    let ways: [&[&str]; 4] = [&["-h"], &["help"], &["soak", "--help"], &["1", "-h"]];
    for arguments in ways {
        assert_eq!(printed(arguments), text, "{arguments:?}");
    }
}

#[test]
fn version_is_that_of_the_workspace() {
    let version = format!("dapohiru-selftest {}\n", env!("CARGO_PKG_VERSION"));
    assert_eq!(printed(&["--version"]), version);
    assert_eq!(printed(&["-V"]), version);
    let manifest = include_str!("../../Cargo.toml");
    let one = format!(
        "[workspace.package]\nversion = \"{}\"\n",
        env!("CARGO_PKG_VERSION")
    );
    assert!(manifest.contains(&one) && manifest.contains("\nversion.workspace = true\n"));
}

#[test]
fn every_slip_is_listed_once_in_words_and_taken_by_its_name() {
    let text = printed(&["slips"]);
    let lines = text.lines().filter_map(|line| line.strip_prefix("  "));
    let listed: Vec<_> = lines.map(|line| line.split_once(": ").unwrap()).collect();
    for (name, words) in &listed {
        assert!(words.ends_with('.'), "{name}");
        let status = said(&["again", "1", "0", "--slip", name]).0;
        assert!(matches!(status, Some(0 | 1)), "{name}: {status:?}");
    }
    let mut names: Vec<_> = listed.iter().map(|(name, _)| *name).collect();
    names.sort_unstable();
    names.dedup();
    assert_eq!(names.len(), listed.len());
    for slip in every_slip() {
        assert!(names.contains(&slip.as_str()), "{slip}");
    }
}

#[test]
fn list_of_slips_begins_as_the_service_page_shows() {
    let page = include_str!("../../../docs/SERVICE.md");
    let shown = page.split_once("$ ./dapohiru-selftest slips\n").unwrap().1;
    let shown = shown.split_once("[..]\n").unwrap().0;
    assert!(shown.lines().count() > 1);
    assert!(printed(&["slips"]).starts_with(shown), "{shown}");
}

#[test]
fn full_disk_on_output_is_status_2_with_words() {
    let full = std::fs::OpenOptions::new().write(true).open("/dev/full");
    let Ok(full) = full else {
        println!("no /dev/full here");
        return;
    };
    let mut program = Command::new(env!("CARGO_BIN_EXE_dapohiru-selftest"));
    let output = program
        .args(["1", "8"])
        .stdout(full)
        .stderr(Stdio::piped())
        .output()
        .expect("the program runs");
    assert_eq!(output.status.code(), Some(2));
    let text = String::from_utf8_lossy(&output.stderr).into_owned();
    assert!(
        text.starts_with("dapohiru-selftest: standard output: "),
        "{text}"
    );
}
