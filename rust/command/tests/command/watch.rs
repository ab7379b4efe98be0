//! The command `watch`: events, alarms and totals.
use crate::program::{example, file, folder, pair_with, run, shell, Done, PAIR};
use crate::running::Running;
use dapohiru_generators::random::Random;
use dapohiru_generators::walker::Walker;
use dapohiru_generators::zeros::filled;
use dapohiru_second::walk::{Event, Walks};
use std::io::Write;

/// The first line of a run on PAIR.
pub const BEGIN: &str = "starts before node 0 in state 0\n";
/// What is told at the first event in no walk.
pub const NO_WALK: &str =
    "the events are no walk of the job from here on; the promise says nothing of them";

/// The last line of a run: events, those at unwatched points, those in no walk, alarms, other lines, and the state.
pub fn totals([events, unwatched, outside, alarms, wrong, state]: [u64; 6]) -> String {
    format!("events {events}   unwatched {unwatched}   outside a walk {outside}   alarms {alarms}   lines that are no event {wrong}   state {state}\n")
}

/// Watches without the time.
pub fn watch(words: &[&str], events: &str) -> Done {
    run(&[&["watch", "--no-time"], words].concat(), events)
}

/// The alarm of PAIR's write.
pub fn alarm(event: u64, line: u64, subject: &str) -> String {
    format!("alarm at event {event} (line {line}): node 2, symbol 2, state 2 [{subject}]\n")
}

/// The events of a random walk, a line each.
pub fn events_of(random: &mut Random, walker: &mut Walker, most: usize) -> Vec<String> {
    let next = |_| match walker.next_event(random)? {
        Event::Point(node, _) => Some(format!("{node}\n")),
        Event::Call(symbol) | Event::After(symbol) => Some(format!("={symbol}\n")),
    };
    (0..most).map_while(next).collect()
}

#[test]
fn events_without_an_alarm_end_with_status_0() {
    let events = include_str!("../../../../examples/sealed.events");
    for (events, counted) in [(events, [2, 0, 0, 0, 0, 1]), ("", [0; 6])] {
        let done = watch(&[&example("pair.job")], events);
        let printed = BEGIN.to_string() + &totals(counted);
        assert_eq!(done, (0, printed, String::new()));
    }
}

#[test]
fn alarm_is_printed_with_its_event_job_and_plan_and_ends_with_status_1() {
    let events = include_str!("../../../../examples/touched.events");
    let job = example("pair.job");
    let plan = file(&folder("watch-plan"), "pair.plan", b"011\n");
    for (words, subject, unwatched) in [
        (&[&job[..]][..], format!("job {job}, all points watched"), 0),
        (&[&job, &plan], format!("job {job}, plan {plan}"), 1),
    ] {
        let totals = totals([3, unwatched, 0, 1, 0, 2]);
        let printed = BEGIN.to_string() + &alarm(3, 3, &subject) + &totals;
        assert_eq!(watch(words, events), (1, printed, String::new()));
    }
}

#[test]
fn symbols_of_words_are_always_taken() {
    let job = example("pair.job");
    let plan = file(&folder("watch-words"), "pair.plan", b"011\n");
    let done = watch(&[&job, &plan], "=0\n=2\n =2\t\n=1\n\t =002 \n");
    let alarm = |event: u64| {
        format!("alarm at event {event} (line {event}): symbol 2 of a word, state 2 [job {job}, plan {plan}]\n")
    };
    let printed = BEGIN.to_string() + &alarm(2) + &alarm(3) + &totals([5, 0, 5, 2, 0, 0]);
    // PAIR has no words
    let wrong =
        format!("dapohiru: standard input: line 1: event 1 (symbol 0 of a word): {NO_WALK}\n");
    assert_eq!(done, (1, printed, wrong));
}

#[test]
fn walk_comes_in_again_and_returns_without_a_complaint() {
    // node 1 calls with a reopen, comes in again, the seal of node 3 ends that run, which returns to node 1; there
    // the helper reopens, and nodes 2 and 3 follow
    let job = example("regroup.job");
    let folder = folder("watch-again");
    let plan = file(&folder, "regroup.plan", b"0011\n");
    let reopened = "=1\n3\n=1\n2\n3\n";
    // two runs come in and seal, one after the other, and nobody reopens
    let sealed = "=1\n3\n3\n2\n3\n";
    for (words, subject) in [
        (&[&job[..]][..], format!("job {job}, all points watched")),
        (&[&job, &plan], format!("job {job}, plan {plan}")),
    ] {
        let printed = BEGIN.to_string() + &totals([5, 0, 0, 0, 0, 1]);
        assert_eq!(watch(words, reopened), (0, printed, String::new()));
        let printed = BEGIN.to_string() + &alarm(4, 4, &subject) + &totals([5, 0, 0, 1, 0, 1]);
        assert_eq!(watch(words, sealed), (1, printed, String::new()));
    }
    // a call is no event, and a symbol past the rule's is none
    let (status, printed, wrong) = watch(&[&job], "1\n=3\n");
    let wanted = BEGIN.to_string() + &totals([0, 0, 0, 0, 2, 0]);
    assert_eq!((status, printed), (4, wanted));
    assert_eq!(
        wrong,
        "dapohiru: standard input: line 1: node 1 is no event node\n\
         dapohiru: standard input: line 2: refused 14: there is no symbol 3; the symbols are 0 to 2\n"
    );
}

#[test]
fn different_plan_is_noted_and_used() {
    let folder = folder("watch-different");
    let plan = file(&folder, "pair.plan", b"001\n");
    let done = watch(&[&example("pair.job"), &plan], "0\n1\n2\n");
    let printed = BEGIN.to_string() + &totals([3, 2, 0, 0, 0, 0]);
    let note = "is different: on some walk it has other alarms than all points watched\n";
    assert_eq!(done, (0, printed, format!("note: {plan} {note}")));
}

#[test]
fn line_that_is_no_event_is_named_and_the_rest_is_taken() {
    let job = pair_with(&[("P     1     1     0", "P     1     0     0")]);
    let folder = folder("watch-wrong");
    let job = file(&folder, "plain.job", job.as_bytes());
    let long = "0".repeat(100_000);
    let words = "is neither a node number nor = and a symbol";
    for (line, why) in [
        ("seal", format!("`seal` {words}")),
        ("", format!("`` {words}")),
        ("-1", format!("`-1` {words}")),
        ("0 2", format!("`0 2` {words}")),
        ("=", format!("`=` {words}")),
        ("= 1", format!("`= 1` {words}")),
        ("0x1", format!("`0x1` {words}")),
        ("\r2", format!("`\\r2` {words}")),
        ("0\r2", format!("`0\\r2` {words}")),
        ("\u{b}2", format!("`\\u{{b}}2` {words}")),
        ("2\u{c}", format!("`2\\u{{c}}` {words}")),
        ("2\0", format!("`2\\0` {words}")),
        ("\t", format!("`\\t` {words}")),
        (
            &format!("{long}\r"),
            format!(
                "`{}..` is no event: it has Windows line ends, mended by `tr -d '\\r' < FILE > NEW`",
                "0".repeat(65)
            ),
        ),
        ("1", "node 1 is no event node".to_string()),
        ("3", "there is no node 3; the nodes are 0 to 2".to_string()),
        (
            "99999999999999999999",
            "there is no node 99999999999999999999; the nodes are 0 to 2".to_string(),
        ),
        (
            " 0003",
            "there is no node 0003; the nodes are 0 to 2".to_string(),
        ),
        (
            "=99999999999999999999",
            "refused 14: there is no symbol 99999999999999999999; the symbols are 0 to 2"
                .to_string(),
        ),
        (
            "=3",
            "refused 14: there is no symbol 3; the symbols are 0 to 2".to_string(),
        ),
        (
            &long,
            format!("`{}..` is longer than any event", "0".repeat(65)),
        ),
    ] {
        let done = watch(&[&job], &format!("0\n{line}\n2\n"));
        let alarm = alarm(2, 3, &format!("job {job}, all points watched"));
        let printed = BEGIN.to_string() + &alarm + &totals([2, 0, 0, 1, 1, 2]);
        let wrong = format!("dapohiru: standard input: line 2: {why}\n");
        assert_eq!(done, (1, printed, wrong));
    }
}

#[test]
fn last_line_without_its_end_is_told_and_not_taken() {
    let job = example("pair.job");
    let long = "0".repeat(100_000);
    let windows = "; it has Windows line ends, mended by `tr -d '\\r' < FILE > NEW`";
    for (line, shown, has) in [
        ("2", "2", ""),
        (" 0", " 0", ""),
        ("1\r", "1\\r", windows),
        ("seal", "seal", ""),
        (&long, &format!("{}..", "0".repeat(65)), ""),
        (
            &format!("{long}\r"),
            &format!("{}..", "0".repeat(65)),
            windows,
        ),
    ] {
        let done = watch(&[&job], &format!("0\n1\n{line}"));
        let printed = BEGIN.to_string() + &totals([2, 0, 0, 0, 1, 1]);
        let why = format!("`{shown}` is no event: the input ends before the end of the line{has}");
        let wrong = format!("dapohiru: standard input: line 3: {why}\n");
        assert_eq!(done, (4, printed, wrong));
    }
}

#[test]
fn alarm_wins_over_no_walk_and_no_walk_over_a_line_that_is_no_event() {
    let job = example("pair.job");
    for (events, status) in [
        ("0\n1\n", 0),
        ("0\n1\nx\n", 4),
        ("0\n1\n1\n", 3),
        ("0\n1\n1\nx\n", 3),
        ("x\n0\n0\n1", 3),
        ("0\n1\n2\n", 1),
        ("0\n1\n2\nx\n", 1),
        ("0\n1\n2\n2\n", 1),
        ("x\n0\n2\n", 1),
    ] {
        assert_eq!(watch(&[&job], events).0, status, "{events}");
    }
}

#[test]
fn refused_job_or_plan_takes_no_event() {
    let folder = folder("watch-refused");
    let plan = file(&folder, "short.plan", b"01\n");
    let job = file(&folder, "cut.job", &PAIR.as_bytes()[..100]);
    for (words, begins) in [
        (
            &[&example("pair.job")[..], &plan][..],
            format!("dapohiru: {plan}: refused 11: "),
        ),
        (&[&job], format!("dapohiru: {job}: refused 4: ")),
    ] {
        let (status, printed, wrong) = watch(words, "0\n1\n2\n");
        assert_eq!((status, printed.as_str()), (2, ""));
        assert!(wrong.starts_with(&begins), "{wrong}");
    }
}

#[test]
fn each_alarm_is_printed_before_the_next_event_is_given() {
    let job = example("pair.job");
    let mut running = Running::watch(&[&job]);
    assert_eq!(running.next().as_deref(), Ok(BEGIN));
    writeln!(running.input, "0").unwrap();
    for event in 2..5 {
        writeln!(running.input, "2").unwrap();
        let alarm = alarm(event, event, &format!("job {job}, all points watched"));
        assert_eq!(running.next(), Ok(alarm));
    }
    let wrong = format!("dapohiru: standard input: line 2: event 2 (node 2): {NO_WALK}\n");
    assert_eq!(running.end(), (1, totals([4, 0, 3, 3, 0, 2]), wrong));
}

#[test]
fn planned_monitor_has_the_alarms_of_the_full_one_on_walks() {
    let mut random = Random::of_this_run();
    let folder = folder("watch-walks");
    let (mut alarms, mut unwatched) = (0, 0);
    for _ in 0..30 {
        let job = dapohiru_generators::small::job(&mut random);
        let walks = Walks::new(&job, None);
        let mut walker = Walker::begin(&mut random, &walks);
        let state = format!("--state={}", walker.start);
        let events = events_of(&mut random, &mut walker, 200).concat();
        let name = file(&folder, "a.job", &filled(&mut random, job.file()));
        let plan = folder.join("a.plan").display().to_string();
        assert_eq!(run(&["plan", &name, "-o", &plan], "").0, 0);
        let full = watch(&[&name, &state], &events);
        let planned = watch(&[&name, &plan, &state], &events);
        // the states at the alarms need not be the same
        let told = |done: &Done| {
            let lines = done.1.lines().filter(|line| line.starts_with("alarm"));
            let told = lines.map(|line| line.split(", state").next().unwrap().to_string());
            told.collect::<Vec<_>>()
        };
        assert_eq!((full.0, told(&full)), (planned.0, told(&planned)));
        assert_eq!((full.2.as_str(), planned.2.as_str()), ("", ""));
        alarms += told(&full).len();
        unwatched += usize::from(!planned.1.contains("unwatched 0 "));
    }
    println!("{alarms} alarms, {unwatched} walks with events at unwatched points");
}

#[test]
fn closed_input_has_no_events() {
    let done = shell("\"$1\" watch \"$2\" <&-", &[&example("pair.job")]);
    let printed = BEGIN.to_string() + &totals([0; 6]);
    assert_eq!(done, (0, printed, String::new()));
}

#[test]
fn input_that_cannot_be_read_is_told_with_the_totals() {
    let done = shell("\"$1\" watch \"$2\" < /", &[&example("pair.job")]);
    let wrong = "dapohiru: standard input: after line 0: Is a directory (os error 21)\n";
    let printed = BEGIN.to_string() + &totals([0; 6]);
    assert_eq!(done, (2, printed, wrong.to_string()));
}
