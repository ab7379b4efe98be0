//! The record of `watch`: what it holds, and how it goes on.
use crate::program::{example, file, folder, names, pair_with, shell};
use crate::running::Running;
use crate::watch::{alarm, totals, watch, BEGIN, NO_WALK};
use std::fs;
use std::io::Write;
use std::path::Path;
use std::thread::sleep;
use std::time::{Duration, Instant};

/// PAIR, its plan and a record, which is not there yet.
pub fn files(folder: &Path) -> [String; 3] {
    let plan = file(folder, "pair.plan", b"011\n");
    let record = folder.join("pair.record").display().to_string();
    [example("pair.job"), plan, record]
}

/// What is printed where a record goes on.
fn goes_on(line: u64, state: u64, alarms: u64) -> String {
    format!("goes on after line {line} of the input, in state {state}, alarm total {alarms}; give the events after line {line}\n")
}

#[test]
fn record_says_what_it_holds() {
    let folder = folder("record-text");
    let [job, plan, record] = files(&folder);
    let done = watch(&[&job, &plan, "--record", &record], "0\n1\nx\n2\n");
    assert_eq!(done.0, 1);
    let text = fs::read_to_string(&record).unwrap();
    let (body, end) = text.rsplit_once("end ").unwrap();
    let sum = |name: &str| {
        let (_, sum, _) = shell("sha256sum < \"$2\"", &[name]);
        sum[..64].to_string()
    };
    let length = fs::metadata(&job).unwrap().len();
    let digest = sum(&job);
    assert_eq!(
        body,
        format!(
            "dapohiru watch record 1\n\
             job {length} bytes, sha256 {digest}: {job}\n\
             plan 011: {plan}\n\
             start state 0 nodes 0\n\
             line 4\n\
             events 3\n\
             unwatched 1\n\
             outside 0\n\
             wrong 1\n\
             alarms 1\n\
             state 2\n\
             places past 2\n"
        )
    );
    let body = file(&folder, "body", body.as_bytes());
    assert_eq!(end, sum(&body) + "\n");
    assert_eq!(names(&folder), ["body", "pair.plan", "pair.record"]);
}

#[test]
fn record_goes_on_where_it_was() {
    let folder = folder("record-goes-on");
    let [job, plan, record] = files(&folder);
    let words = [&job, &plan, "--record", &record];
    let lines = ["0\n", "x\n", "1\n", "2\n", "0\n", "=1\n", "\n", "2\n"];
    let once = watch(&[&job, &plan], &lines.concat());
    for cut in 0..=lines.len() {
        let _ = fs::remove_file(&record);
        let first = watch(&words, &lines[..cut].concat());
        let second = watch(&words, &lines[cut..].concat());
        // both runs together tell what one run tells, but for where they begin and end
        let told = |done: &(i32, String, String)| {
            let lines = done.1.lines().filter(|line| line.starts_with("alarm"));
            lines.map(str::to_string).collect::<Vec<_>>()
        };
        assert_eq!([told(&first), told(&second)].concat(), told(&once));
        assert_eq!(first.2 + &second.2, once.2);
        assert_eq!(second.0, once.0);
        assert_eq!(second.1.lines().last(), once.1.lines().last());
        let begin = format!("goes on after line {cut} of the input, in state ");
        assert!(second.1.starts_with(&begin), "{}", second.1);
    }
}

/// The first line of JSON of a run without an event.
fn printed_json(words: &[&str]) -> String {
    let (_, printed, _) = watch(&[words, &["--json"]].concat(), "");
    printed.lines().next().unwrap().to_string()
}

#[test]
fn record_of_a_walk_that_was_left_does_not_tell_it_again() {
    let [job, plan, record] = files(&folder("record-left"));
    let words = [&job, &plan, "--record", &record];
    let (status, _, wrong) = watch(&words, "0\n0\n");
    assert_eq!(status, 3);
    assert!(wrong.ends_with(&format!("line 2: event 2 (node 0): {NO_WALK}\n")));
    assert!(fs::read_to_string(&record)
        .unwrap()
        .contains("\nplaces none\n"));
    for (events, line, state) in [("1\n", 2, 0), ("=0\n", 3, 1)] {
        let (status, printed, wrong) = watch(&words, events);
        assert_eq!((status, wrong.as_str()), (3, ""));
        let left = "; the events are no walk of the job since event 2; give";
        let begin = goes_on(line, state, 0).replace("; give", left);
        assert!(printed.starts_with(&begin), "{printed}");
    }
    assert!(printed_json(&words).ends_with("\"state\":1,\"walk\":false,\"since\":2}"));
    fs::remove_file(&record).unwrap();
    assert_eq!(watch(&words, "0\n").0, 0);
    assert!(printed_json(&words).ends_with("\"state\":0,\"walk\":true}"));
}

#[test]
fn line_without_its_end_is_not_held() {
    let [job, plan, record] = files(&folder("record-unended"));
    let words = [&job, &plan, "--record", &record];
    let done = watch(&words, "0\n1\n2");
    assert_eq!(
        (done.0, done.1),
        (4, BEGIN.to_string() + &totals([2, 1, 0, 0, 1, 1]))
    );
    let alarm = alarm(3, 3, &format!("job {job}, plan {plan}"));
    let printed = goes_on(2, 1, 0) + &alarm + &totals([3, 1, 0, 1, 0, 2]);
    assert_eq!(watch(&words, "2\n"), (1, printed, String::new()));
}

/// Waits until a record holds this line.
pub fn holds(record: &str, line: u64) {
    let begin = Instant::now();
    let held = format!("\nline {line}\n");
    while !fs::read_to_string(record).is_ok_and(|text| text.contains(&held)) {
        assert!(begin.elapsed() < Duration::from_secs(60), "line {line}");
        sleep(Duration::from_millis(1));
    }
}

#[test]
fn killed_program_goes_on_after_its_last_line() {
    let folder = folder("record-killed");
    let [job, plan, record] = files(&folder);
    let words = [&job[..], &plan, "--record", &record];
    for (number, (line, state)) in [("0\n", 0), ("1\n", 1), ("2\n", 2)].into_iter().enumerate() {
        let mut running = Running::watch(&words);
        running.input.write_all(line.as_bytes()).unwrap();
        holds(&record, number as u64 + 1);
        // what is typed without its end is not held
        running.input.write_all(b"7").unwrap();
        running.signal("KILL");
        running.child.wait().unwrap();
        let (status, printed, wrong) = watch(&words, "");
        assert_eq!(wrong, "");
        assert_eq!(status, i32::from(number == 2));
        let begin = goes_on(number as u64 + 1, state, u64::from(number == 2));
        assert!(printed.starts_with(&begin), "{printed}");
    }
    // what was left is gone
    assert_eq!(names(&folder), ["pair.plan", "pair.record"]);
}

#[test]
fn record_is_written_by_one_program_alone() {
    let [job, plan, record] = files(&folder("record-two"));
    let words = [&job[..], &plan, "--record", &record];
    let mut running = Running::watch(&words);
    for (number, line) in ["0\n", "1\n", "x\n"].iter().enumerate() {
        running.input.write_all(line.as_bytes()).unwrap();
        holds(&record, number as u64 + 1);
        let wrong = format!("dapohiru: {record}: another `watch` is running on this record\n");
        assert_eq!(watch(&words, "2\n"), (2, String::new(), wrong));
    }
    let (status, printed, _) = running.end();
    let printed = printed.strip_prefix(BEGIN).unwrap();
    assert_eq!((status, printed), (4, &totals([2, 1, 0, 0, 1, 1])[..]));
    assert!(watch(&words, "").1.starts_with(&goes_on(3, 1, 0)));
}

#[test]
fn start_that_is_not_the_records_is_refused() {
    let folder = folder("record-start");
    // two entries, both in the states 0 and 1
    let job = pair_with(&[
        ("P     0     1     0     1", "P     0     1     0     3"),
        (
            "P     1     1     0     0     0",
            "P     1     1     0     3     0",
        ),
    ]);
    let job = file(&folder, "two.job", job.as_bytes());
    let record = folder.join("two.record").display().to_string();
    let with = |words: &[&str]| watch(&[&[&job[..], "--record", &record], words].concat(), "");
    // one that is refused leaves no record
    assert_eq!(with(&[]).0, 2);
    assert!(!Path::new(&record).exists());
    for (start, entries, good, bad) in [
        (
            &["--state", "1"][..],
            "nodes 0, 1",
            vec![&[][..], &["--state=1"]],
            vec![
                &["--state=0"][..],
                &["--entry=0"],
                &["--entry=0", "--state=1"],
            ],
        ),
        (
            &["--entry=1", "--state=1"],
            "node 1",
            vec![&[], &["--entry=1", "--state=1"], &["--entry=1"]],
            vec![
                &["--entry=0"],
                &["--entry=1", "--state=0"],
                &["--state=1"],
                &["--state=2"],
            ],
        ),
    ] {
        let _ = fs::remove_file(&record);
        assert_eq!(with(start).0, 0);
        for words in good {
            let (status, printed, _) = with(words);
            assert_eq!(status, 0, "{words:?}");
            assert!(printed.starts_with(&goes_on(0, 1, 0)), "{printed}");
        }
        for words in bad {
            let wrong = format!("dapohiru: {record}: it began before {entries} in state 1, and --entry and --state ask for another start\n");
            assert_eq!(with(words), (2, String::new(), wrong), "{words:?}");
        }
    }
}
