//! What `watch` tells: times, names, JSON, and bytes from outside.
use crate::program::{example, file, folder, run, run_bytes, shell};
use crate::watch::{alarm, watch, NO_WALK};
use std::fs;
use std::time::SystemTime;

#[test]
fn names_stand_beside_the_numbers() {
    let names =
        "0 seal\n2 write\nnode 0 first seal\nnode 2 journal\nstate 0 open\nstate 2 touched\n";
    let names = file(&folder("watch-names"), "pair.names", names.as_bytes());
    let job = example("pair.job");
    let done = watch(&[&job, "--names", &names], "0\n1\n2\n0\n=2\n");
    let subject = format!("[job {job}, all points watched]");
    let printed = format!(
        "starts before node 0 first seal in state 0 open\n\
         alarm at event 3 (line 3): node 2 journal, symbol 2 write, state 2 touched {subject}\n\
         alarm at event 5 (line 5): symbol 2 write of a word, state 2 touched {subject}\n\
         events 5   unwatched 0   outside a walk 2   alarms 2   lines that are no event 0   state 2 touched\n"
    );
    let wrong =
        format!("dapohiru: standard input: line 4: event 4 (node 0 first seal): {NO_WALK}\n");
    assert_eq!(done, (1, printed, wrong));
}

#[test]
fn each_thing_is_told_as_a_line_of_json() {
    let job = example("pair.job");
    let plan = file(&folder("watch-json"), "pair.plan", b"011\n");
    let names = file(
        &folder("watch-json-names"),
        "a.names",
        b"2 a \"b\"\nnode 1 c\n",
    );
    let subject = format!("\"job\":\"{job}\",\"plan\":\"{plan}\"");
    let words = [&job, &plan, "--json", "--names", &names];
    let done = watch(&words, "0\n\"\n1\n2\n0\n=2\n");
    let printed = format!(
        "{{\"told\":\"start\",{subject},\"verdict\":\"faithful\",\"nodes\":[0],\"state\":0,\"names\":{{\"symbols\":[{{\"number\":2,\"name\":\"a \\\"b\\\"\"}}],\"nodes\":[{{\"number\":1,\"name\":\"c\"}}],\"states\":[]}}}}\n\
         {{\"told\":\"no event\",\"line\":2,\"why\":\"`\\\"` is neither a node number nor = and a symbol\"}}\n\
         {{\"told\":\"alarm\",{subject},\"event\":3,\"line\":4,\"node\":2,\"symbol\":2,\"state\":2}}\n\
         {{\"told\":\"no walk\",\"event\":4,\"line\":5,\"node\":0,\"symbol\":0}}\n\
         {{\"told\":\"alarm\",{subject},\"event\":5,\"line\":6,\"symbol\":2,\"state\":2}}\n\
         {{\"told\":\"totals\",\"line\":6,\"events\":5,\"unwatched\":2,\"outside\":2,\"alarms\":2,\"wrong\":1,\"state\":2}}\n"
    );
    assert_eq!(done, (1, printed, String::new()));
    let (_, printed, _) = run(&["watch", &job, "--json"], "0\n1\n2\n");
    let line = printed.lines().nth(1).unwrap();
    assert!(
        line.starts_with("{\"told\":\"alarm\",\"time\":\"2"),
        "{line}"
    );
    assert!(
        line.contains(&format!("Z\",\"job\":\"{job}\",\"event\":3,")),
        "{line}"
    );
}

#[test]
fn lines_of_json_that_begin_a_run_have_the_verdict() {
    let folder = folder("watch-verdict");
    let job = example("pair.job");
    let record = folder.join("pair.record").display().to_string();
    for (digits, verdict) in [("011", "faithful"), ("001", "different")] {
        let _ = fs::remove_file(&record);
        let plan = file(&folder, "pair.plan", digits.as_bytes());
        let subject = format!("\"job\":\"{job}\",\"plan\":\"{plan}\",\"verdict\":\"{verdict}\",");
        for told in ["start", "goes on"] {
            let (status, printed, note) = watch(&[&job, &plan, "--json", "--record", &record], "");
            let begins = format!("{{\"told\":\"{told}\",{subject}");
            assert!(status == 0 && printed.starts_with(&begins), "{printed}");
            assert_eq!(note.is_empty(), verdict == "faithful");
        }
    }
    // all points watched need no verdict
    let (_, printed, _) = watch(&[&job, "--json"], "");
    assert!(!printed.contains("verdict"), "{printed}");
}

#[test]
fn bytes_of_an_event_do_not_reach_the_terminal() {
    let job = example("pair.job");
    let words = ["watch", "--no-time", &job];
    let (_, _, wrong) = run_bytes(&words, b"\x1b]0;x\x07\xff\n");
    let why = "`\\u{1b}]0;x\\u{7}\\xff` is neither a node number nor = and a symbol";
    assert_eq!(wrong, format!("dapohiru: standard input: line 1: {why}\n"));
}

#[test]
fn alarm_has_the_time_of_its_event() {
    let job = example("pair.job");
    let seconds = || {
        let since = SystemTime::now().duration_since(SystemTime::UNIX_EPOCH);
        since.unwrap().as_secs()
    };
    let before = seconds();
    let (status, printed, _) = run(&["watch", &job], "0\n1\n2\n");
    let after = seconds();
    assert_eq!(status, 1);
    let line = printed.lines().nth(1).unwrap();
    let (time, told) = line.split_once(' ').unwrap();
    let subject = format!("job {job}, all points watched");
    assert_eq!(format!("{told}\n"), alarm(3, 3, &subject));
    assert_eq!(time.len(), "2026-11-17T14:53:00Z".len());
    let (seconds, _, _) = shell("date -u -d \"$2\" +%s", &[time]);
    assert_eq!(seconds, 0);
    let (_, seconds, _) = shell("date -u -d \"$2\" +%s", &[time]);
    let seconds = seconds.trim_end().parse().unwrap();
    assert!((before..=after).contains(&seconds), "{time}");
}
